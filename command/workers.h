// Plans in batches, on one processor or several, with the results in the order of their names. However many plans there are, so many batches are held.
#ifndef WORKERS_H
#define WORKERS_H

#include "options.h"
#include "text.h"
#include "which.h"

enum { BATCH_NAMES = 128, BATCH_COMPLAINTS = 1 << 16 };

// Whether a plan was named by whoever asks, or found in a folder.
enum origin { NAMED, FOUND };

struct batch {
    struct text names; // each ends with a 0
    size_t starts[BATCH_NAMES];
    enum origin origins[BATCH_NAMES];
    size_t count;
    struct text lines, complaints; // for standard output, and for standard error
    unsigned char numbers[BATCH_NAMES]; // of the verdicts of so many plans, which have lines
    size_t quoted;
    size_t unread, empty; // files and folders that cannot be read; folders without a plan
    int spoils;           // the file that the lines go to is one of those that are read
};

// Adds a plan's name, given in two parts.
void batch_add(struct batch *batch, enum origin origin, const char *folder, const char *name);

// Whether there are as many names in it as it takes, or as many complaints.
int batch_is_full(const struct batch *batch);

// Where names come from: `fill` adds some to a batch, and says whether there are more.
struct source {
    int (*fill)(void *from, struct batch *batch);
    void *from;
};

// Where results go: `take` gets each batch when its lines are made, in order, and says whether to go on.
struct sink {
    int (*take)(void *to, const struct batch *batch);
    void *to;
    const struct which *file; // where the lines go: a plan that is this file has none
};

void work(const struct options *options, struct source source, struct sink sink);

#endif
