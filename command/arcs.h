// The arcs of a readable plan without a circle, and which of them follow from others.
#ifndef ARCS_H
#define ARCS_H

#include "plan.h"

#include <stdbool.h>

struct arc {
    unsigned from, to, wait;
    bool is_extra;
    bool follows; // the pair is connected through a third activity too, with waits that are together as long, so that it says nothing of its own
};

struct arcs {
    struct arc arcs[YAFFLEDESK_MOST_PLAN_BYTES / YAFFLEDESK_RECORD_BYTES];
    size_t count;
};

void arcs_of(struct arcs *arcs, const struct plan *plan);

// How many arcs follow from others, or do not.
size_t arcs_count(const struct arcs *arcs, bool follows);

// The shortest wait of an activity's job arcs, or of its extra arcs, that is longer than this; 0 where there is none.
unsigned arcs_next_wait(const struct arcs *arcs, unsigned activity, bool is_extra, unsigned wait);

#endif
