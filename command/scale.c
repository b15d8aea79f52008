#include "scale.h"

#include <inttypes.h>
#include <stdio.h>
#include <string.h>

double scale_place(const struct scale *scale, uint64_t number) {
    return scale->from + (scale->to - scale->from) * (double)number / (double)scale->most;
}

uint64_t scale_step(const struct scale *scale, double apart) {
    double length = scale->to > scale->from ? scale->to - scale->from : scale->from - scale->to;
    uint64_t step = 1;
    // the second of each three, 2, becomes 5, and the others are doubled
    for (unsigned turn = 0; step <= scale->most && length * (double)step / (double)scale->most < apart; turn++)
        step = turn % 3 == 1 ? step / 2 * 5 : step * 2;
    return step;
}

struct grouped scale_grouped(uint64_t number) {
    struct grouped grouped = {""};
    char plain[24];
    int len = snprintf(plain, sizeof plain, "%" PRIu64, number);
    char *to = grouped.digits;
    for (int i = 0; i < len; i++) {
        if (len > 4 && i > 0 && (len - i) % 3 == 0) *to++ = ',';
        *to++ = plain[i];
    }
    *to = 0;
    return grouped;
}
