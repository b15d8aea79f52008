#include "shown.h"

#include "utf8.h"

#include <stdio.h>
#include <string.h>

size_t shown_name(struct text *out, const char *name) {
    size_t characters = 0;
    while (*name != 0) {
        size_t len = utf8_shown(name);
        if (len == 0) {
            text_print(out, "\\x%02x", (unsigned)(unsigned char)*name++);
            characters += 4;
        } else if (*name == '\\') {
            text_put(out, "\\\\");
            characters += 2;
            name++;
        } else {
            text_add(out, name, len);
            characters++;
            name += len;
        }
    }
    return characters;
}

void csv_field(struct text *out, const char *bytes, size_t len) {
    if (len == 0 || (memchr(bytes, ',', len) == NULL && memchr(bytes, '"', len) == NULL)) {
        text_add(out, bytes, len);
        return;
    }
    text_put(out, "\"");
    for (size_t i = 0; i < len; i++) {
        if (bytes[i] == '"') text_put(out, "\"");
        text_add(out, bytes + i, 1);
    }
    text_put(out, "\"");
}

void shown_csv(struct text *out, const char *name) {
    struct text shown = {0};
    shown_name(&shown, name);
    csv_field(out, shown.bytes, shown.len);
    text_free(&shown);
}

void shown_json(struct text *out, const char *name) {
    text_put(out, "\"");
    while (*name != 0) {
        uint32_t code;
        size_t len = utf8_character(name, &code);
        if (len == 0)
            text_put(out, "\xEF\xBF\xBD");
        else if (code == '"' || code == '\\')
            text_print(out, "\\%c", *name);
        else if (utf8_shown(name) == 0) // all of these have four digits at most
            text_print(out, "\\u%04x", (unsigned)code);
        else
            text_add(out, name, len);
        name += len == 0 ? 1 : len;
    }
    text_put(out, "\"");
}

// Line 0 is none.
static void complaint_list(struct text *out, const char *name, size_t line, const char *format, va_list values) {
    text_put(out, "yaffledesk: ");
    shown_name(out, name);
    if (line > 0) text_print(out, ":%zu", line);
    text_put(out, ": ");
    text_print_list(out, format, values);
    text_put(out, "\n");
}

static void complain_list(const char *name, size_t line, const char *format, va_list values) {
    struct text said = {0};
    complaint_list(&said, name, line, format, values);
    fwrite(said.bytes, 1, said.len, stderr);
    text_free(&said);
}

void complaint(struct text *out, const char *name, const char *format, ...) {
    va_list values;
    va_start(values, format);
    complaint_list(out, name, 0, format, values);
    va_end(values);
}

void complain(const char *name, const char *format, ...) {
    va_list values;
    va_start(values, format);
    complain_list(name, 0, format, values);
    va_end(values);
}

void complain_at(const char *name, size_t line, const char *format, ...) {
    va_list values;
    va_start(values, format);
    complain_list(name, line, format, values);
    va_end(values);
}
