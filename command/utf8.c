#include "utf8.h"

#include <string.h>

// How many bytes a character has that begins with this one; 0 where none does.
static size_t length_by(unsigned char first) {
    if (first < 0x80) return 1;
    if (first >= 0xC2 && first < 0xE0) return 2;
    if (first >= 0xE0 && first < 0xF0) return 3;
    if (first >= 0xF0 && first < 0xF5) return 4;
    return 0;
}

size_t utf8_character(const char *at, uint32_t *code) {
    static const uint32_t least[] = {0, 0, 0x80, 0x800, 0x10000};
    unsigned char first = (unsigned char)*at;
    size_t len = length_by(first);
    *code = len == 1 ? first : first & (0xFFu >> (len + 1));
    for (size_t i = 1; i < len; i++) {
        unsigned char next = (unsigned char)at[i]; // the 0 at the end is no such byte, so that nothing behind it is read
        if ((next & 0xC0) != 0x80) return 0;
        *code = *code << 6 | (next & 0x3Fu);
    }
    return *code >= least[len] && *code < 0x110000 && (*code < 0xD800 || *code >= 0xE000) ? len : 0;
}

// Not so: controls below the blank and from 0x7F to 0x9F; codes that break lines or turn the direction of writing; codes that are no characters.
static int can_be_shown(uint32_t code) {
    if (code < ' ' || (code >= 0x7F && code < 0xA0)) return 0;
    if ((code >= 0x2028 && code < 0x202F) || (code >= 0x2066 && code < 0x206A)) return 0;
    return code != 0xFFFE && code != 0xFFFF;
}

size_t utf8_shown(const char *at) {
    uint32_t code;
    size_t len = utf8_character(at, &code);
    return len > 0 && can_be_shown(code) ? len : 0;
}

double utf8_width(const char *at) {
    if ((unsigned char)*at >= 0x80) return utf8_shown(at) < 3 ? 0.68 : 1.02;
    if (strchr("ijl'|", *at) != NULL) return 0.28;
    if (strchr(" .,:;ftr()-!/[]", *at) != NULL) return 0.37;
    if (strchr("mwMW%@", *at) != NULL) return 0.96;
    if (*at >= 'A' && *at <= 'Z') return 0.7;
    return 0.637;
}
