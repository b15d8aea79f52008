#include "text.h"

#include "status.h"

#include <stdio.h>
#include <stdlib.h>
#include <string.h>

enum { FIRST_ROOM = 4096 };

// Whoever cannot make a line of text cannot go on, and must not go on without it.
__attribute__((noreturn)) static void end_program(const char *why) {
    fprintf(stderr, "yaffledesk: %s\n", why);
    exit(STATUS_TROUBLE);
}

// Room for so many bytes more.
static void make_room(struct text *text, size_t more) {
    if (text->room - text->len >= more) return;
    size_t room = text->room == 0 ? FIRST_ROOM : text->room;
    while (room - text->len < more) room *= 2;
    char *bytes = realloc(text->bytes, room);
    if (bytes == NULL) end_program("out of memory");
    text->bytes = bytes;
    text->room = room;
}

void text_add(struct text *text, const void *bytes, size_t len) {
    make_room(text, len);
    if (len > 0) memcpy(text->bytes + text->len, bytes, len);
    text->len += len;
}

void text_put(struct text *text, const char *string) { text_add(text, string, strlen(string)); }

void text_print_list(struct text *text, const char *format, va_list values) {
    va_list again;
    va_copy(again, values);
    int len = vsnprintf(NULL, 0, format, again);
    va_end(again);
    if (len < 0) end_program("a text cannot be printed");
    make_room(text, (size_t)len + 1); // vsnprintf ends with a 0, which does not count
    vsnprintf(text->bytes + text->len, (size_t)len + 1, format, values);
    text->len += (size_t)len;
}

void text_print(struct text *text, const char *format, ...) {
    va_list values;
    va_start(values, format);
    text_print_list(text, format, values);
    va_end(values);
}

void text_fill(struct text *text, char byte, size_t count) {
    make_room(text, count);
    if (count > 0) memset(text->bytes + text->len, byte, count);
    text->len += count;
}

void text_clear(struct text *text) { text->len = 0; }

void text_free(struct text *text) {
    free(text->bytes);
    *text = (struct text){0};
}
