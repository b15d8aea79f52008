// Characters of a name, which can hold any bytes.
#ifndef UTF8_H
#define UTF8_H

#include <stddef.h>
#include <stdint.h>

// How many bytes the character at the front has, 1 to 4, and its code; 0 where they are not of UTF-8 (RFC 3629: shortest form, no halves of pairs, at most
// U+10FFFF).
size_t utf8_character(const char *at, uint32_t *code);

// How many bytes the character at the front takes, 1 to 4. 0 where it cannot be shown in a line of text: a control character, one that breaks lines or turns
// the direction of writing, one that XML does not take, or bytes that are not of UTF-8.
size_t utf8_shown(const char *at);

// About how wide the character at the front is in DejaVu Sans, of the size of its letters.
double utf8_width(const char *at);

#endif
