// Elements of an SVG picture, written one behind the other. What is drawn, and where, is for those who call; these know how it is written, which is
// the same bytes whatever the locale. A `look` is a string of attributes, as look.h has them.
#ifndef SVG_H
#define SVG_H

#include "text.h"

// A number with at most two decimals.
void svg_number(struct text *svg, double number);

// Any bytes as XML text: what XML has other uses for is written otherwise, and control characters and bytes that are not UTF-8 are shown as '?'.
void svg_escaped(struct text *svg, const char *string);

void svg_rect(struct text *svg, const char *look, double x, double y, double width, double height);
void svg_line(struct text *svg, const char *look, double x1, double y1, double x2, double y2);

// What a reader is told who points at what stands in the same group.
__attribute__((format(printf, 2, 3))) void svg_title(struct text *svg, const char *format, ...);

// A path: begun, led by a letter of SVG to one point after another, and ended, with or without words for who points at it.
void svg_path(struct text *svg, const char *look);
void svg_lead(struct text *svg, char letter, double x, double y);
void svg_path_end(struct text *svg);
__attribute__((format(printf, 2, 3))) void svg_path_end_titled(struct text *svg, const char *format, ...);

// Words that begin, end or are centred at a point, as the look says, their middle at this height. What printf would print, up to LONGEST_WORDS bytes.
enum { LONGEST_WORDS = 2048 };
__attribute__((format(printf, 6, 7))) void svg_words(struct text *svg, const char *look, double size, double x, double y, const char *format, ...);

// About as wide as words of this size are in the widest of our fonts.
double svg_width(const char *words, double size);
double svg_bold_width(const char *words, double size);

// Words in a line that is no wider than given: cut, with dots, where they are.
void svg_cut_words(struct text *svg, const char *look, double size, double x, double y, double width, const char *words);

// Words in as many lines as it takes. The height behind the last of them.
double svg_paragraph(struct text *svg, const char *look, double size, double x, double y, double width, const char *words);

#endif
