// texts: prints what is no text, a character that no locale has, by text.c. Compiled and run by code.sh.
#include "text.h"

#include <stdio.h>
#include <wchar.h>

int main(void) {
    struct text text = {0};
    const wchar_t none[] = {0x7FFFFFFF, 0};
    text_put(&text, "before ");
    text_print(&text, "%ls", none);
    printf("went on, and has %zu bytes\n", text.len);
    text_free(&text);
    return 0;
}
