// What a timetable occupies of a kind, over time.
#ifndef LOADS_H
#define LOADS_H

#include "picture.h"

// So many are occupied from a time on.
struct load_step {
    uint64_t time, occupied;
};

// Steps at ascending times, at each of which the number changes; the last leaves nobody occupied. None where nobody
// ever is.
struct load {
    struct load_step steps[2 * MOST_ACTIVITIES];
    size_t count;
    uint64_t most;
};

void loads_of(struct load *load, const struct picture *picture, unsigned kind);

// The same on the paper: so many are seen to be occupied from a place on.
struct seen_step {
    double x;
    uint64_t occupied;
};

enum { MOST_SEEN = 4 * MOST_ACTIVITIES }; // a load's step can be two: one where it begins, and one where it ends

// Steps at ascending places, as those of a load are.
struct seen {
    struct seen_step steps[MOST_SEEN];
    size_t count;
};

// What is occupied between two steps can be seen however short that is, and the greater of two that would then stand
// in the same place: so a peak of one period in thousands is seen, and as high as it is.
void loads_seen(struct seen *seen, const struct load *load, const struct picture *picture);

#endif
