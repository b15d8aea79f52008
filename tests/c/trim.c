// Trim: an accepted plan without the extra arcs that it can do without. By from, then to, each of wait 0 is taken out if the plan then left is accepted.
#include "checks.h"

enum { JOB = 3, EXTRA = 4, MOST_ARCS = 6, LONGEST = 65535 };
#define AT(place) ((size_t)(place) * RECORD)

// An arc, and whether its record is left. All but extra arcs are.
typedef struct {
    uint8_t type, from, to;
    unsigned wait;
    int stays;
} arc;

// Three jobs of two workers each with a crew of four: no three may be at work at once, so that one arc between any two is enough.
typedef struct {
    const char *name;
    arc arcs[MOST_ARCS]; // type 0: no more
} some_arcs;

static void append_arc(plan_file *plan, const arc *given) {
    append(plan, given->type, given->from, given->to);
    plan->bytes[plan->len - RECORD + 4] = (uint8_t)(given->wait & 255);
    plan->bytes[plan->len - RECORD + 5] = (uint8_t)(given->wait >> 8);
}

// A plan of so many activities, of duration 1, that each demand so many of kind 1, and so many available.
static plan_file demanding(const char *name, unsigned activities, uint8_t demand, uint8_t available) {
    plan_file plan = renamed(idle_plan(activities), name);
    for (unsigned i = 0; i < activities; i++) plan.bytes[AT(i) + 4] = demand;
    plan.bytes[AT(activities) + 4] = available;
    return plan;
}

// Without any one of the extra arcs of wait 0 that are left, a kind is overloaded.
static void check_no_fewer(const plan_file *left) {
    for (size_t at = 0; at < left->len; at += RECORD) {
        if (left->bytes[at] != EXTRA || left->bytes[at + 4] != 0 || left->bytes[at + 5] != 0) continue;
        plan_file fewer = with_length(*left, left->len - RECORD);
        memmove(fewer.bytes + at, left->bytes + at + RECORD, left->len - RECORD - at);
        const uint64_t verdict = yaffledesk_verdict(fewer.bytes, fewer.len);
        check(YAFFLEDESK_NUMBER(verdict) == YAFFLEDESK_OVERLOADED, "%s: record %zu may go, too", left->name, at / RECORD);
    }
}

// The trimmed plan is this one, byte for byte, whatever more is lent. Behind it nothing is written (`trim` looks). Trimmed again it is the same.
static void check_left(const plan_file *plan, const plan_file *left) {
    const size_t lent[] = {plan->len, plan->len + 1, plan->len + RECORD, LENT_BYTES - 1};
    for (size_t n = 0; n < sizeof lent / sizeof *lent; n++) {
        check_answer(plan->name, "Trim", trim(plan, lent[n]), YAFFLEDESK_DONE, left->len / RECORD);
        check(memcmp(lent_bytes, left->bytes, left->len) == 0, "%s: another plan is left", plan->name);
    }
    const size_t few[] = {0, RECORD, left->len - 1, left->len, plan->len - 1};
    for (size_t n = 0; n < sizeof few / sizeof *few; n++)
        if (few[n] < plan->len) check_answer(plan->name, "Trim, short", trim(plan, few[n]), YAFFLEDESK_TOO_SHORT, plan->len);
    check_answer(plan->name, "Verdict of what is left", yaffledesk_verdict(left->bytes, left->len), YAFFLEDESK_DONE,
                 YAFFLEDESK_REST(yaffledesk_verdict(plan->bytes, plan->len)));
    check_answer(plan->name, "Trim again", trim(left, left->len), YAFFLEDESK_DONE, left->len / RECORD);
    check(memcmp(lent_bytes, left->bytes, left->len) == 0, "%s: trimmed again it is another plan", plan->name);
    check_no_fewer(left);
}

static void check_arcs(const plan_file *bare, const arc *arcs) {
    plan_file plan = *bare, left = *bare;
    for (size_t n = 0; n < MOST_ARCS && arcs[n].type != 0; n++) {
        append_arc(&plan, &arcs[n]);
        if (arcs[n].type != EXTRA || arcs[n].stays) append_arc(&left, &arcs[n]);
    }
    check_left(&plan, &left);
}

static void written_out(void) {
    static const some_arcs cases[] = {
        {"no arcs but one of the job order", {{JOB, 1, 2, 0, 1}}},
        {"one extra arc, which is needed", {{EXTRA, 3, 1, 0, 1}}},
        {"the last of two stays", {{EXTRA, 1, 2, 0, 0}, {EXTRA, 2, 3, 0, 1}}},
        {"the last of two stays, though it stands first in the file", {{EXTRA, 2, 3, 0, 1}, {EXTRA, 1, 2, 0, 0}}},
        {"of one from, the last to stays", {{EXTRA, 1, 3, 0, 1}, {EXTRA, 1, 2, 0, 0}}},
        {"by from before to", {{EXTRA, 3, 2, 0, 1}, {EXTRA, 1, 3, 0, 0}}},
        {"the last of three stays", {{EXTRA, 1, 3, 0, 0}, {EXTRA, 2, 3, 0, 1}, {EXTRA, 1, 2, 0, 0}}},
        {"a pair that is a job arc too", {{JOB, 1, 2, 0, 1}, {EXTRA, 1, 2, 0, 0}}},
        {"a job arc, and others", {{JOB, 3, 2, 0, 1}, {EXTRA, 3, 2, 0, 0}, {EXTRA, 1, 2, 0, 0}, {EXTRA, 3, 1, 0, 0}}},
        // its own wait counts, and not that of the job arc
        {"a pair whose job arc has a wait", {{JOB, 1, 2, 7, 1}, {EXTRA, 1, 2, 0, 0}}},
        {"a pair whose extra arc has a wait", {{JOB, 1, 2, 0, 1}, {EXTRA, 1, 2, 7, 1}}},
        {"a pair with two waits", {{JOB, 1, 2, 9, 1}, {EXTRA, 1, 2, 7, 1}, {EXTRA, 1, 3, 0, 0}}},
        // an arc with a wait is no reason to keep another, be it before it or behind it
        {"the first has a wait", {{EXTRA, 1, 2, 1, 1}, {EXTRA, 2, 3, 0, 0}}},
        {"the last has a wait", {{EXTRA, 1, 2, 0, 0}, {EXTRA, 2, 3, 1, 1}}},
        {"a wait in the higher byte alone", {{EXTRA, 2, 3, 0, 0}, {EXTRA, 1, 2, 256, 1}}},
        {"the longest wait", {{EXTRA, 2, 3, 0, 0}, {EXTRA, 1, 2, LONGEST, 1}}},
        {"all with waits", {{EXTRA, 2, 3, 1, 1}, {EXTRA, 1, 3, 2, 1}, {EXTRA, 1, 2, 3, 1}}},
    };
    const plan_file bare = demanding("", 3, 2, 4), enough = demanding("enough for all, and an arc with a wait", 3, 2, 6);
    for (const some_arcs *given = cases; given < cases + sizeof cases / sizeof *cases; given++) {
        const plan_file plan = renamed(bare, given->name);
        check_arcs(&plan, given->arcs);
    }
    check_arcs(&enough, (const arc[MOST_ARCS]){{EXTRA, 2, 3, 0, 0}, {EXTRA, 1, 2, 256, 1}, {EXTRA, 1, 3, 0, 0}});
    const plan_file none = demanding("no activities", 0, 0, 4), idle = renamed(idle_plan(3), "idle activities");
    check_left(&none, &none);
    check_arcs(&idle, (const arc[MOST_ARCS]){{JOB, 3, 1, 0, 1}, {EXTRA, 1, 2, 0, 0}, {EXTRA, 3, 2, 0, 0}});
    // a milestone passes order on: both arcs to it and from it are needed, unless there is one past it, which comes later
    const plan_file past = renamed(with_byte(with_byte(demanding("", 3, 1, 1), AT(1) + 2, 0), AT(1) + 4, 0), "a milestone");
    check_arcs(&past, (const arc[MOST_ARCS]){{EXTRA, 2, 3, 0, 1}, {EXTRA, 1, 2, 0, 1}});
    check_arcs(&past, (const arc[MOST_ARCS]){{EXTRA, 2, 3, 0, 0}, {EXTRA, 1, 2, 0, 0}, {EXTRA, 1, 3, 0, 1}});
}

// Two jobs of one worker of each of eight kinds. Of one kind there is one: for that kind alone the arc between them stays.
static void every_kind(void) {
    for (size_t kind = 0; kind <= 8; kind++) {
        plan_file plan = with_byte(renamed(idle_plan(2), "an arc for one kind of eight"), AT(2) + 1, 8);
        for (size_t n = 0; n < 8; n++) plan.bytes[AT(0) + 4 + 2 * n] = plan.bytes[AT(1) + 4 + 2 * n] = 1, plan.bytes[AT(2) + 4 + 2 * n] = n == kind ? 1 : 2;
        check_arcs(&plan, (const arc[MOST_ARCS]){{EXTRA, 2, 1, 0, kind < 8}});
    }
}

// Circles, then 9 with the length of the given file, then 7 as the verdict gives it.
static void causes(void) {
    plan_file over = demanding("three at once", 3, 2, 4), round = renamed(over, "three at once and a circle");
    append(&over, JOB, 1, 2), over.bytes[AT(0) + 4] = 3;
    append(&round, EXTRA, 1, 2), append(&round, EXTRA, 2, 1);
    const uint64_t verdict = yaffledesk_verdict(over.bytes, over.len);
    for (size_t lent = 0; lent <= over.len + RECORD; lent++) {
        const uint64_t answer = trim(&over, lent);
        if (lent < over.len) check_answer(over.name, "Trim, short", answer, YAFFLEDESK_TOO_SHORT, over.len);
        else check(answer == verdict && YAFFLEDESK_NUMBER(answer) == YAFFLEDESK_OVERLOADED, "%s: another 7 than the verdict's", over.name);
        check_answer(round.name, "Trim", trim(&round, lent), YAFFLEDESK_PLAN_CIRCLE, 1);
    }
    check_refused(round, YAFFLEDESK_PLAN_CIRCLE, 1);
}

// 60 jobs that all need the one worker, with an arc for every pair upwards, in the order of their ends or from the last on: those from one job to the next
// are left, in the order in which they stand. With enough workers none are, and with waits all.
static void longest(int turned) {
    enum { JOBS = 60, PAIRS = JOBS * (JOBS - 1) / 2 };
    const plan_file bare = demanding("60 in a row", JOBS, 1, 1);
    plan_file plan = bare, left = bare;
    arc pairs[PAIRS];
    size_t count = 0;
    for (uint8_t from = 1; from <= JOBS; from++)
        for (uint8_t to = from + 1; to <= JOBS; to++) pairs[count++] = (arc){EXTRA, from, to, 0, to == from + 1};
    for (size_t n = 0; n < PAIRS; n++) {
        const arc *given = &pairs[turned ? PAIRS - 1 - n : n];
        append_arc(&plan, given);
        if (given->stays) append_arc(&left, given);
    }
    check(left.len == AT(JOBS + 1 + JOBS - 1), "%s: %zu bytes", left.name, left.len);
    check_left(&plan, &left);
    const plan_file enough = with_byte(renamed(plan, "60 in a row, and enough"), AT(JOBS) + 4, JOBS), none = with_byte(bare, AT(JOBS) + 4, JOBS);
    check_left(&enough, &none);
    for (size_t at = AT(JOBS + 1); at < plan.len; at += RECORD) plan.bytes[at + 5] = 1;
    check_left(&plan, &plan);
}

// As many records as a file can have, of idle activities: all extra arcs go.
static void full(void) {
    const plan_file plan = full_plan(), left = with_length(plan, AT(65));
    check_left(&plan, &left);
}

// The example: three of six extra arcs go, and what is left starts and ends sooner.
static void comfort(void) {
    const plan_file plan = example("comfort");
    plan_file left = renamed(with_length(plan, AT(11)), "comfort, trimmed");
    static const size_t stay[] = {12, 13}; // and record 10: from 7 to 5, 4 to 5 with its wait, and 3 to 4
    for (size_t n = 0; n < 2; n++) memmove(left.bytes + left.len, plan.bytes + AT(stay[n]), RECORD), left.len += RECORD;
    check_answer(plan.name, "Verdict", yaffledesk_verdict(plan.bytes, plan.len), YAFFLEDESK_DONE, 7 + 256 * 2);
    check_left(&plan, &left);
    check_answer(plan.name, "Starts", starts(&plan, 8), YAFFLEDESK_DONE, 8);
    check(memcmp(lent_numbers, LIST(0, 2, 1, 3, 8, 5, 0, 10), 8 * sizeof *lent_numbers) == 0, "comfort: other starts");
    check_answer(left.name, "Starts", starts(&left, 8), YAFFLEDESK_DONE, 8);
    check(memcmp(lent_numbers, LIST(0, 2, 0, 2, 7, 5, 0, 9), 8 * sizeof *lent_numbers) == 0, "comfort, trimmed: other starts");
}

void trims(void) {
    written_out();
    every_kind();
    causes();
    longest(0);
    longest(1);
    full();
    comfort();
}
