#include "svg.h"

#include "utf8.h"

#include <stdarg.h>
#include <stdio.h>
#include <string.h>

static const double MIDDLE = 0.36; // of a size: how far the foot of digits and small letters is below their middle
static const double LINE = 1.4;    // of a size: from one line to the next
static const double BOLD = 1.1;    // bold words are wider by this

void svg_number(struct text *svg, double number) {
    long hundredths = (long)(number < 0 ? number * 100 - 0.5 : number * 100 + 0.5);
    if (hundredths < 0) text_put(svg, "-");
    if (hundredths < 0) hundredths = -hundredths;
    text_print(svg, "%ld", hundredths / 100);
    if (hundredths % 100 == 0) return;
    if (hundredths % 10 == 0)
        text_print(svg, ".%ld", hundredths / 10 % 10);
    else
        text_print(svg, ".%02ld", hundredths % 100);
}

static void put_character(struct text *svg, const char *at, size_t len) {
    if (*at == '&')
        text_put(svg, "&amp;");
    else if (*at == '<')
        text_put(svg, "&lt;");
    else if (*at == '>')
        text_put(svg, "&gt;");
    else
        text_add(svg, at, len);
}

void svg_escaped(struct text *svg, const char *string) {
    while (*string != 0) {
        size_t len = utf8_shown(string);
        put_character(svg, len > 0 ? string : "?", len > 0 ? len : 1);
        string += len > 0 ? len : 1;
    }
}

static void attribute(struct text *svg, const char *name, double value) {
    text_print(svg, " %s='", name);
    svg_number(svg, value);
    text_put(svg, "'");
}

void svg_rect(struct text *svg, const char *look, double x, double y, double width, double height) {
    text_print(svg, "<rect %s", look);
    attribute(svg, "x", x);
    attribute(svg, "y", y);
    attribute(svg, "width", width);
    attribute(svg, "height", height);
    text_put(svg, "/>\n");
}

void svg_line(struct text *svg, const char *look, double x1, double y1, double x2, double y2) {
    text_print(svg, "<line %s", look);
    attribute(svg, "x1", x1);
    attribute(svg, "y1", y1);
    attribute(svg, "x2", x2);
    attribute(svg, "y2", y2);
    text_put(svg, "/>\n");
}

void svg_path(struct text *svg, const char *look) { text_print(svg, "<path%s%s d='", *look == 0 ? "" : " ", look); }

void svg_lead(struct text *svg, char letter, double x, double y) {
    text_add(svg, &letter, 1);
    svg_number(svg, x);
    text_put(svg, " ");
    svg_number(svg, y);
}

void svg_path_end(struct text *svg) { text_put(svg, "'/>\n"); }

static void put_printed(struct text *svg, const char *format, va_list values) {
    char words[LONGEST_WORDS];
    vsnprintf(words, sizeof words, format, values);
    svg_escaped(svg, words);
}

void svg_title(struct text *svg, const char *format, ...) {
    va_list values;
    va_start(values, format);
    text_put(svg, "<title>");
    put_printed(svg, format, values);
    text_put(svg, "</title>");
    va_end(values);
}

void svg_path_end_titled(struct text *svg, const char *format, ...) {
    va_list values;
    va_start(values, format);
    text_put(svg, "'><title>");
    put_printed(svg, format, values);
    text_put(svg, "</title></path>\n");
    va_end(values);
}

void svg_words(struct text *svg, const char *look, double size, double x, double y, const char *format, ...) {
    va_list values;
    va_start(values, format);
    text_print(svg, "<text %s", look);
    attribute(svg, "font-size", size);
    attribute(svg, "x", x);
    attribute(svg, "y", y + MIDDLE * size);
    text_put(svg, ">");
    put_printed(svg, format, values);
    text_put(svg, "</text>\n");
    va_end(values);
}

double svg_width(const char *words, double size) {
    double width = 0;
    while (*words != 0) {
        width += utf8_width(words);
        size_t len = utf8_shown(words);
        words += len > 0 ? len : 1;
    }
    return width * size;
}

double svg_bold_width(const char *words, double size) { return svg_width(words, size) * BOLD; }

// How many bytes of the words fit.
static size_t fitting(const char *words, double size, double width) {
    const char *at = words;
    while (*at != 0) {
        width -= utf8_width(at) * size;
        if (width < 0) break;
        size_t len = utf8_shown(at);
        at += len > 0 ? len : 1;
    }
    return (size_t)(at - words);
}

static double width_for(const char *look, double width) { return strstr(look, "bold") == NULL ? width : width / BOLD; }

void svg_cut_words(struct text *svg, const char *look, double size, double x, double y, double width, const char *words) {
    width = width_for(look, width);
    if (svg_width(words, size) <= width)
        svg_words(svg, look, size, x, y, "%s", words);
    else
        svg_words(svg, look, size, x, y, "%.*s...", (int)fitting(words, size, width - svg_width("...", size)), words);
}

// How many bytes of the words go into a line: up to the last blank within it, or as many as fit where there is none.
static size_t line_of(const char *words, double size, double width) {
    size_t most = fitting(words, size, width);
    if (words[most] == 0) return most;
    for (size_t len = most; len > 0; len--)
        if (words[len] == ' ') return len;
    return most > 0 ? most : 1;
}

double svg_paragraph(struct text *svg, const char *look, double size, double x, double y, double width, const char *words) {
    width = width_for(look, width);
    while (*words != 0) {
        size_t len = line_of(words, size, width);
        svg_words(svg, look, size, x, y + size * LINE / 2, "%.*s", (int)len, words);
        words += len;
        while (*words == ' ') words++;
        y += size * LINE;
    }
    return y;
}
