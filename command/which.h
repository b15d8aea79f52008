// Which file it is, by whatever name it goes: a link, another name of it, or a descriptor that is open on it. Only of
// regular files: a terminal or a pipe can be read and written at once.
#ifndef WHICH_H
#define WHICH_H

#include <sys/stat.h>

struct which {
    int is; // 0: no regular file, or none at all; it is the same as no other
    dev_t device;
    ino_t number;
};

static inline struct which which_of(const struct stat *is) {
    return (struct which){.is = S_ISREG(is->st_mode), .device = is->st_dev, .number = is->st_ino};
}

// The file that a descriptor is open on, and the one that a name leads to.
static inline struct which which_open(int file) {
    struct stat is;
    return fstat(file, &is) == 0 ? which_of(&is) : (struct which){0};
}

static inline struct which which_named(const char *name) {
    struct stat is;
    return stat(name, &is) == 0 ? which_of(&is) : (struct which){0};
}

static inline int which_same(const struct which *one, const struct which *other) {
    return one->is && other->is && one->device == other->device && one->number == other->number;
}

#endif
