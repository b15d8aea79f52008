// The library's refusals in words. An answer tells a number and a place, an activity, a kind or a count; the words say what stands there.
#ifndef REFUSAL_H
#define REFUSAL_H

#include "plan.h"
#include "text.h"

// The starts and durations that a crew works in, of activities 1 to count.
struct crew {
    uint32_t starts[YAFFLEDESK_MOST_ACTIVITIES], durations[YAFFLEDESK_MOST_ACTIVITIES];
    size_t count;
};

// What was asked of a plan, as far as the operation takes more than its bytes.
struct asked {
    uint64_t kind, page;
    const struct crew *crew;
};

// Says what an answer other than 0 means, in one sentence without its number, and without a newline.
void refusal_say(struct text *out, uint64_t answer, const struct plan *plan, const struct asked *asked);

// The same of 7, with numbers from 10,000 on in groups of three digits, as a picture has them.
void refusal_say_grouped(struct text *out, uint64_t answer, const struct plan *plan);

// Of a plan for which the library's answer is 10: the first activity, from 1, whose worked duration does not fit it, a
// milestone that is worked, or another that is not. 0 where the crew has not as many activities as the plan, or none.
unsigned refusal_misfit(const struct plan *plan, const struct crew *crew);

// A set's members with commas between them.
void members_say(struct text *out, uint64_t set);

#endif
