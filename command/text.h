// Text under way: bytes that are gathered until all of them can be written at once. Where there is no memory for them,
// or printf could not print them, the program ends: that is said, and its status is 2.
#ifndef TEXT_H
#define TEXT_H

#include <stdarg.h>
#include <stddef.h>

struct text {
    char *bytes;
    size_t len, room;
};

// Bytes behind what is there.
void text_add(struct text *text, const void *bytes, size_t len);

// The same of a string, and of what printf would print.
void text_put(struct text *text, const char *string);
__attribute__((format(printf, 2, 3))) void text_print(struct text *text, const char *format, ...);
void text_print_list(struct text *text, const char *format, va_list values);

// Bytes of a value that is repeated, as blanks in a table are.
void text_fill(struct text *text, char byte, size_t count);

// Nothing in it, and its memory is kept for what comes next, or given back.
void text_clear(struct text *text);
void text_free(struct text *text);

#endif
