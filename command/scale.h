// A scale: which place of the picture a number has, and at which numbers ticks stand.
#ifndef SCALE_H
#define SCALE_H

#include <stdint.h>

struct scale {
    double from, to; // the places of 0 and of the most
    uint64_t most;   // 1 or more
};

double scale_place(const struct scale *scale, uint64_t number);

// The least of 1, 2, 5, 10, 20, 50 .. whose ticks stand at least this far apart; a step beyond the most leaves the tick at 0 alone.
uint64_t scale_step(const struct scale *scale, double apart);

// A number to be read by people: from 10,000 on in groups of three digits.
struct grouped {
    char digits[32];
};
struct grouped scale_grouped(uint64_t number);

#endif
