// The added mark: 1 exactly where both ends are activities and job arcs do not lead from the one to the other, directly or through others.
#include "checks.h"

enum { JOB = 3, EXTRA = 4, MOST_ARCS = 5 };
#define AT(place) ((size_t)(place) * RECORD)

// Jobs 1 and 3 occupy the whole crew of two, job 2 occupies nobody, and 4 is a milestone. The arcs, each its type, from and to (type 0: no more), let units
// pass from 1 to 3 alone, whichever way leads there.
typedef struct {
    const char *name;
    uint8_t arcs[MOST_ARCS][3];
    uint8_t mark; // from 1 to 3
} way;

static plan_file with_arcs(const char *name, const uint8_t arcs[][3]) {
    plan_file plan = renamed(idle_plan(4), name);
    plan.bytes[AT(0) + 4] = plan.bytes[AT(2) + 4] = plan.bytes[CREW + 4] = 2, plan.bytes[AT(3) + 2] = 0;
    for (size_t n = 0; n < MOST_ARCS && arcs[n][0] != 0; n++) append(&plan, arcs[n][0], arcs[n][1], arcs[n][2]);
    return plan;
}

// The same plan with every arc as a job arc, a pair of both types once.
static plan_file as_job_arcs(const plan_file *plan, size_t first) {
    plan_file job = with_length(*plan, first);
    for (size_t at = first; at < plan->len; at += RECORD) {
        size_t same = first;
        while (same < job.len && memcmp(job.bytes + same + 1, plan->bytes + at + 1, RECORD - 1) != 0) same += RECORD;
        if (same == job.len) append(&job, JOB, plan->bytes[at + 1], plan->bytes[at + 2]);
    }
    return job;
}

// With job arcs alone, where every mark is 0, a plan of one kind and page has the same verdict, needs, sheet, and flow but for its marks.
static void check_alike(const plan_file *plan, size_t first) {
    static uint8_t before[LENT_BYTES];
    const plan_file job = as_job_arcs(plan, first);
    check(yaffledesk_verdict(plan->bytes, plan->len) == yaffledesk_verdict(job.bytes, job.len), "%s: another verdict with job arcs alone", plan->name);
    uint64_t answer = needs(plan, 1);
    uint32_t need = lent_numbers[0];
    check(needs(&job, 1) == answer && lent_numbers[0] == need, "%s: another need with job arcs alone", plan->name);
    answer = sheet(plan, 1, 1, PAGE);
    memcpy(before, lent_bytes, sizeof before);
    check(sheet(&job, 1, 1, PAGE) == answer && memcmp(before, lent_bytes, sizeof before) == 0, "%s: another sheet with job arcs alone", plan->name);
    answer = flow(plan, 1, LENT_BYTES - 1);
    memcpy(before, lent_bytes, sizeof before);
    for (size_t n = 0; n < YAFFLEDESK_REST(answer); n++) before[AT(n) + YAFFLEDESK_AT_ADDED] = 0;
    check(flow(&job, 1, LENT_BYTES - 1) == answer && memcmp(before, lent_bytes, sizeof before) == 0, "%s: not all marks 0 with job arcs alone", plan->name);
}

static void ways(void) {
    static const way ways[] = {
        {"a job arc", {{JOB, 1, 3}}, 0},
        {"an extra arc", {{EXTRA, 1, 3}}, 1},
        {"an arc of both types", {{JOB, 1, 3}, {EXTRA, 1, 3}}, 0},
        {"job arcs through a third job", {{JOB, 1, 2}, {JOB, 2, 3}}, 0},
        {"job arcs through a milestone", {{JOB, 1, 4}, {JOB, 4, 3}}, 0},
        {"job arcs through both", {{JOB, 1, 2}, {JOB, 2, 4}, {JOB, 4, 3}}, 0},
        {"a third job, from it by an extra arc", {{JOB, 1, 2}, {EXTRA, 2, 3}}, 1},
        {"a third job, to it by an extra arc", {{JOB, 2, 3}, {EXTRA, 1, 2}}, 1},
        {"a third job by extra arcs", {{EXTRA, 1, 2}, {EXTRA, 2, 3}}, 1},
        {"an extra arc amid job arcs", {{JOB, 1, 2}, {JOB, 4, 3}, {EXTRA, 2, 4}}, 1},
        {"a third job by job arcs and an extra arc past it", {{JOB, 1, 2}, {JOB, 2, 3}, {EXTRA, 1, 3}}, 0},
        {"a job arc and extra arcs through a third job", {{JOB, 1, 3}, {EXTRA, 1, 2}, {EXTRA, 2, 3}}, 0},
        {"a way of job arcs and a way of extra arcs", {{JOB, 1, 2}, {JOB, 2, 3}, {EXTRA, 1, 4}, {EXTRA, 4, 3}}, 0},
        {"two ways with an extra arc each", {{JOB, 1, 2}, {JOB, 4, 3}, {EXTRA, 1, 4}, {EXTRA, 2, 3}}, 1},
        {"an extra arc, and a job before both", {{JOB, 2, 1}, {JOB, 2, 3}, {EXTRA, 1, 3}}, 1},
        {"an extra arc, and a job after both", {{JOB, 1, 2}, {JOB, 3, 2}, {EXTRA, 1, 3}}, 1},
    };
    for (const way *given = ways; given < ways + sizeof ways / sizeof *ways; given++) {
        const plan_file plan = with_arcs(given->name, given->arcs);
        check_accepted(&plan, 4);
        check_flow(&plan, YAFFLEDESK_FLOW_BYTES(4), (const uint8_t[][5]){{1, 0, 1, 2, 0}, {1, 1, 3, 2, given->mark}, {1, 3, 5, 2, 0}}, 3);
        check_alike(&plan, AT(5));
    }
}

// From the first to the last of 64, past idle jobs or milestones: by job arcs alone, and with one arc, wherever in the row, of the other type or of both.
static void longest(uint8_t duration) {
    plan_file row = renamed(idle_plan(64), "a row of 64 by job arcs");
    for (size_t i = 1; i < 63; i++) row.bytes[AT(i) + 2] = duration;
    row.bytes[AT(0) + 4] = row.bytes[AT(63) + 4] = row.bytes[AT(64) + 4] = 2;
    const plan_file bare = row;
    for (uint8_t i = 1; i < 64; i++) append(&row, JOB, i, i + 1);
    check_flow(&row, YAFFLEDESK_FLOW_BYTES(64), (const uint8_t[][5]){{1, 0, 1, 2, 0}, {1, 1, 64, 2, 0}, {1, 64, 65, 2, 0}}, 3);
    for (uint8_t other = 1; other < 64; other++) {
        plan_file both = renamed(row, "the same, one arc an extra arc too"), one = renamed(bare, "the same, one arc an extra arc only");
        append(&both, EXTRA, other, other + 1);
        for (uint8_t i = 1; i < 64; i++)
            if (i != other) append(&one, JOB, i, i + 1);
        append(&one, EXTRA, other, other + 1);
        check_flow(&both, YAFFLEDESK_FLOW_BYTES(64), (const uint8_t[][5]){{1, 0, 1, 2, 0}, {1, 1, 64, 2, 0}, {1, 64, 65, 2, 0}}, 3);
        check_flow(&one, YAFFLEDESK_FLOW_BYTES(64), (const uint8_t[][5]){{1, 0, 1, 2, 0}, {1, 1, 64, 2, 1}, {1, 64, 65, 2, 0}}, 3);
    }
    check_alike(&row, AT(65));
}

// The example: from hopper to belt the job order forces the handover through a third job, and the other one is by an extra arc.
static void briefed(void) {
    const plan_file plan = example("briefed");
    static const uint8_t records[][5] = {{1, 0, 1, 2, 0}, {1, 0, 4, 1, 0}, {1, 1, 3, 2, 0}, {1, 3, 6, 2, 0}, {1, 4, 5, 1, 1}, {1, 5, 6, 1, 0}};
    static const char *const page[] = {"KIND 1   1",
                                       "  0   1        2          0",
                                       "  0   4        1          0",
                                       "  4   5        1          2",
                                       "  1   3        2          4",
                                       "  3   6        2          8",
                                       "  5   6        1          8"};
    check_accepted(&plan, 5);
    check_numbers(&plan, 3, LIST(0, 3, 4, 0, 2, 8), 6);
    check_flow(&plan, YAFFLEDESK_FLOW_BYTES(5), records, 6);
    check_page(&plan, PAGE, page, 7);
    check_alike(&plan, AT(6));
    // without the extra arc 4 and 5 may be at work beside the hopper or the belt
    check_answer(plan.name, "Verdict without its extra arc", yaffledesk_verdict(plan.bytes, plan.len - RECORD), YAFFLEDESK_OVERLOADED,
                 1 + 256 * 4 + ((uint64_t)3 << 40));
}

void added(void) {
    ways();
    longest(1);
    longest(0);
    briefed();
}
