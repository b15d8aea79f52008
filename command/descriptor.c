#include "descriptor.h"

#include "which.h"

#include <errno.h>
#include <fcntl.h>
#include <limits.h>
#include <stdio.h>
#include <stdlib.h>
#include <string.h>
#include <unistd.h>

enum { MOST_LINKS = 40 }; // as many as the kernel follows

static const char *last_part(const char *name) {
    const char *slash = strrchr(name, '/');
    return slash != NULL ? slash + 1 : name;
}

// The folder that a name stands in, without links. 0 where there is none.
static int folder_of(const char *name, char *real) {
    char folder[PATH_MAX];
    size_t len = (size_t)(last_part(name) - name);
    if (len >= sizeof folder) return 0;
    memcpy(folder, name, len);
    folder[len] = 0;
    return realpath(len > 0 ? folder : ".", real) != NULL;
}

static int is_of_descriptors(const char *folder) {
    char own[PATH_MAX];
    return realpath("/proc/self/fd", own) != NULL && strcmp(folder, own) == 0;
}

// As /proc writes it: digits, and no 0 before others. -1 where it is none.
static int number(const char *word) {
    long value = 0;
    const char *digit = word;
    for (; *digit >= '0' && *digit <= '9' && value < INT_MAX / 10; digit++) value = 10 * value + (*digit - '0');
    return *digit != 0 || digit == word || (word[0] == '0' && word[1] != 0) ? -1 : (int)value;
}

// Where a link leads, from the folder that it stands in. 0 where it is no link.
static int follow(char *name, const char *folder) {
    char to[PATH_MAX], link[2 * PATH_MAX];
    snprintf(link, sizeof link, "%s/%s", folder, last_part(name));
    ssize_t len = readlink(link, to, sizeof to);
    if (len < 0 || len == sizeof to) return 0;
    to[len] = 0;
    return snprintf(name, PATH_MAX, "%s%s%s", to[0] == '/' ? "" : folder, to[0] == '/' ? "" : "/", to) < PATH_MAX;
}

// Not by opening it: that would give another description of the file, which writes from its beginning.
static int by_links(const char *given) {
    char name[PATH_MAX], folder[PATH_MAX];
    if (strlen(given) >= sizeof name) return -1;
    strcpy(name, given);
    for (int links = 0; links < MOST_LINKS && folder_of(name, folder); links++) {
        if (is_of_descriptors(folder)) return number(last_part(name));
        if (!follow(name, folder)) break;
    }
    return -1;
}

static int by_file(const char *name) {
    struct which named = which_named(name);
    for (int file = STDOUT_FILENO; file <= STDERR_FILENO; file++) {
        struct which open = which_open(file);
        if (which_same(&named, &open)) return file;
    }
    return -1;
}

int descriptor_named(const char *name) {
    int file = by_links(name);
    return file >= 0 ? file : by_file(name);
}

int descriptor_again(int file) { return fcntl(file, F_DUPFD_CLOEXEC, STDERR_FILENO + 1); }

int descriptor_moved(int file) {
    if (file < 0 || file > STDERR_FILENO) return file;
    int moved = descriptor_again(file), trouble = errno;
    close(file);
    errno = trouble;
    return moved;
}
