#include "input.h"

#include <errno.h>
#include <fcntl.h>
#include <string.h>
#include <unistd.h>

const char *input_trouble(void) {
    static _Thread_local char words[128];
    return strerror_r(errno, words, sizeof words); // GNU's, which gives a constant, or what it wrote
}

// A read can give fewer bytes than asked for.
static const char *fill(int file, void *bytes, size_t room, size_t *len) {
    for (*len = 0; *len < room;) {
        ssize_t got = read(file, (char *)bytes + *len, room - *len);
        if (got == 0) break;
        if (got < 0 && errno == EINTR) continue;
        if (got < 0) return input_trouble();
        *len += (size_t)got;
    }
    return NULL;
}

const char *input_take(int file, void *bytes, size_t room, size_t *len) {
    if (file < 0) return input_trouble();
    const char *trouble = fill(file, bytes, room, len);
    close(file);
    return trouble;
}

int input_open(const char *name) {
    return strcmp(name, "-") == 0 ? fcntl(STDIN_FILENO, F_DUPFD_CLOEXEC, 0) : open(name, O_RDONLY | O_CLOEXEC);
}

const char *input_read(const char *name, void *bytes, size_t room, size_t *len) {
    return input_take(input_open(name), bytes, room, len);
}
