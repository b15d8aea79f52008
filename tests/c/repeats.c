// No arc twice: a pair that is named again within its type is refused as 13, with the place of the later record.
#include "checks.h"

enum { JOB = 3, EXTRA = 4, MOST_ARCS = 5 };
// Places in a plan of four activities: these are records 0 to 3, the crew is record 4, the arcs stand from record 5 on.
#define AT(place) ((size_t)(place) * RECORD)

// Arcs of four idle activities, each its type, from and to (type 0: no more), and what every operation refuses them with.
typedef struct {
    const char *name;
    uint8_t arcs[MOST_ARCS][3];
    unsigned number;
    uint64_t rest;
} arc_fault;

static plan_file with_arcs(const char *name, const uint8_t arcs[][3]) {
    plan_file plan = renamed(idle_plan(4), name);
    for (size_t n = 0; n < MOST_ARCS && arcs[n][0] != 0; n++) append(&plan, arcs[n][0], arcs[n][1], arcs[n][2]);
    return plan;
}

static void refused(void) {
    static const arc_fault faults[] = {
        {"an extra arc twice", {{EXTRA, 1, 2}, {EXTRA, 1, 2}}, YAFFLEDESK_REPEATED_ARC, 6},
        {"a job arc twice", {{JOB, 1, 2}, {JOB, 1, 2}}, YAFFLEDESK_REPEATED_ARC, 6},
        {"an extra arc three times", {{EXTRA, 3, 1}, {EXTRA, 3, 1}, {EXTRA, 3, 1}}, YAFFLEDESK_REPEATED_ARC, 6},
        {"a job arc three times, with others between", {{JOB, 1, 2}, {JOB, 2, 3}, {JOB, 1, 2}, {JOB, 3, 4}, {JOB, 1, 2}}, YAFFLEDESK_REPEATED_ARC, 7},
        {"an extra arc twice, with another between", {{EXTRA, 1, 2}, {EXTRA, 2, 3}, {EXTRA, 1, 2}}, YAFFLEDESK_REPEATED_ARC, 7},
        {"a block twice", {{JOB, 1, 2}, {JOB, 2, 3}, {JOB, 1, 2}, {JOB, 2, 3}}, YAFFLEDESK_REPEATED_ARC, 7},
        {"two arcs twice, the later one first", {{EXTRA, 1, 2}, {EXTRA, 2, 3}, {EXTRA, 2, 3}, {EXTRA, 1, 2}}, YAFFLEDESK_REPEATED_ARC, 7},
        {"an extra arc twice after a job arc of the same pair", {{JOB, 1, 2}, {EXTRA, 1, 2}, {EXTRA, 1, 2}}, YAFFLEDESK_REPEATED_ARC, 7},
        {"a job arc twice before an extra arc of the same pair", {{JOB, 1, 2}, {JOB, 1, 2}, {EXTRA, 1, 2}}, YAFFLEDESK_REPEATED_ARC, 6},
        {"both types twice", {{JOB, 1, 2}, {JOB, 1, 2}, {EXTRA, 1, 2}, {EXTRA, 1, 2}}, YAFFLEDESK_REPEATED_ARC, 6},
        // before any circle, which this very arc may close
        {"a circle of job arcs and a job arc twice", {{JOB, 1, 2}, {JOB, 2, 1}, {JOB, 2, 1}}, YAFFLEDESK_REPEATED_ARC, 7},
        {"a circle of job arcs and an extra arc twice", {{JOB, 1, 2}, {JOB, 2, 1}, {EXTRA, 3, 4}, {EXTRA, 3, 4}}, YAFFLEDESK_REPEATED_ARC, 8},
        {"a circle of extra arcs and an extra arc twice", {{EXTRA, 1, 2}, {EXTRA, 2, 1}, {EXTRA, 1, 2}}, YAFFLEDESK_REPEATED_ARC, 7},
        {"a circle of both types and a job arc twice", {{JOB, 1, 2}, {JOB, 1, 2}, {EXTRA, 2, 1}}, YAFFLEDESK_REPEATED_ARC, 6},
        // the other way round it is another pair
        {"1 to 2 and 2 to 1 as extra arcs", {{EXTRA, 1, 2}, {EXTRA, 2, 1}}, YAFFLEDESK_PLAN_CIRCLE, 1},
        {"1 to 2 and 2 to 1 as job arcs", {{JOB, 1, 2}, {JOB, 2, 1}}, YAFFLEDESK_JOB_CIRCLE, 1},
        {"1 to 2 as a job arc, 2 to 1 as an extra arc", {{JOB, 1, 2}, {EXTRA, 2, 1}}, YAFFLEDESK_PLAN_CIRCLE, 1},
        {"2 and 3 both ways in both types", {{JOB, 2, 3}, {JOB, 3, 2}, {EXTRA, 2, 3}, {EXTRA, 3, 2}}, YAFFLEDESK_JOB_CIRCLE, 2},
    };
    for (const arc_fault *fault = faults; fault < faults + sizeof faults / sizeof *faults; fault++)
        check_refused(with_arcs(fault->name, fault->arcs), fault->number, fault->rest);

    plan_file over = renamed(example("b"), "an overloaded plan with an arc twice");
    append(&over, EXTRA, 1, 2);
    check_refused(over, YAFFLEDESK_REPEATED_ARC, 8);
}

// Record 7 repeats record 6. Within a record 13 comes last; of two records the earlier one counts, whatever is wrong with it.
static void beside(void) {
    const plan_file plan = with_arcs("record 7 repeats record 6", (const uint8_t[MOST_ARCS][3]){{JOB, 2, 3}, {JOB, 1, 2}, {JOB, 1, 2}, {EXTRA, 3, 4}});
    static const byte_fault faults[] = {
        {"13 and a spare byte", AT(7) + 3, 1, YAFFLEDESK_BAD_SPARE, 7},
        {"13 and the last spare byte", AT(7) + 23, 255, YAFFLEDESK_BAD_SPARE, 7},
        {"13 and an unknown type", AT(7), 5, YAFFLEDESK_BAD_TYPE, 7},
        {"13 and a type out of order", AT(7), 2, YAFFLEDESK_BAD_TYPE, 7},
        {"a spare byte of the first copy", AT(6) + 3, 1, YAFFLEDESK_BAD_SPARE, 6},
        {"an earlier type", AT(5), 1, YAFFLEDESK_BAD_TYPE, 5},
        {"an earlier end", AT(5) + 2, 5, YAFFLEDESK_BAD_FIELD, 5},
        {"an earlier spare byte", AT(5) + 23, 1, YAFFLEDESK_BAD_SPARE, 5},
        {"no kinds", CREW + 1, 0, YAFFLEDESK_BAD_FIELD, 4},
        {"a wrong number", AT(3) + 1, 3, YAFFLEDESK_BAD_FIELD, 3},
        {"a spare byte of an activity", AT(0) + 20, 1, YAFFLEDESK_BAD_SPARE, 0},
        {"a later type", AT(8), 5, YAFFLEDESK_REPEATED_ARC, 7},
        {"a later end", AT(8) + 1, 0, YAFFLEDESK_REPEATED_ARC, 7},
        {"a later spare byte", AT(8) + 3, 1, YAFFLEDESK_REPEATED_ARC, 7},
    };
    check_refused(plan, YAFFLEDESK_REPEATED_ARC, 7);
    check_faults(plan, faults, sizeof faults / sizeof *faults);
    check_refused(renamed(with_byte(with_byte(plan, 2, 0), 4, 1), "13 and 12"), YAFFLEDESK_MILESTONE_DEMAND, 0);
    check_refused(renamed(with_length(plan, plan.len - 1), "13 and a byte too few"), YAFFLEDESK_BAD_LENGTH, 0);

    // the first and the last arc of the longest file
    const plan_file full = full_plan();
    check_refused(renamed(with_byte(with_byte(full, AT(2047) + 1, 1), AT(2047) + 2, 2), "the first arc again as the last"), YAFFLEDESK_REPEATED_ARC, 2047);
    check_refused(renamed(with_byte(full, AT(66) + 2, 2), "the first arc again as the second"), YAFFLEDESK_REPEATED_ARC, 66);
}

// Every pair of 64 activities: twice in a type, as a job and an extra arc, and both ways round. The arcs are records 65 and 66.
static void every_pair(void) {
    const plan_file idle = idle_plan(64);
    plan_file plan = idle;
    for (unsigned i = 1; i <= 64; i++)
        for (unsigned j = 1; j <= 64; j++) {
            if (i == j) continue;
            const unsigned lowest = i < j ? i : j;
            const struct {
                const char *name;
                uint8_t first, second; // types
                unsigned from, to;     // of the second
                unsigned number, rest;
            } pairs[] = {
                {"a job arc twice", JOB, JOB, i, j, YAFFLEDESK_REPEATED_ARC, 66},
                {"an extra arc twice", EXTRA, EXTRA, i, j, YAFFLEDESK_REPEATED_ARC, 66},
                {"a job arc as an extra arc", JOB, EXTRA, i, j, YAFFLEDESK_DONE, 64 + 256 * 1},
                {"job arcs both ways", JOB, JOB, j, i, YAFFLEDESK_JOB_CIRCLE, lowest},
                {"extra arcs both ways", EXTRA, EXTRA, j, i, YAFFLEDESK_PLAN_CIRCLE, lowest},
            };
            for (size_t n = 0; n < sizeof pairs / sizeof *pairs; n++) {
                plan.len = idle.len;
                append(&plan, pairs[n].first, (uint8_t)i, (uint8_t)j);
                append(&plan, pairs[n].second, (uint8_t)pairs[n].from, (uint8_t)pairs[n].to);
                check_answer(pairs[n].name, "Verdict", yaffledesk_verdict(plan.bytes, plan.len), pairs[n].number, pairs[n].rest);
            }
        }
}

// The same pair in both types, and pairs that share one end. The arc counts once.
static void fine(void) {
    plan_file both = with_arcs("a pair as job and extra arc", (const uint8_t[MOST_ARCS][3]){{JOB, 1, 2}, {JOB, 2, 3}, {EXTRA, 1, 2}, {EXTRA, 2, 3}});
    check_accepted(&both, 4);
    check_numbers(&both, 0, LIST(0, 1, 2, 0, 3), 5);
    check_answer(both.name, "the second too early", crew(&both, LIST(0, 0, 2, 0), LIST(1, 1, 1, 1)), YAFFLEDESK_BROKEN_ARC, 1 + 256 * 2);
    plan_file shared = with_arcs("pairs that share an end", (const uint8_t[MOST_ARCS][3]){{JOB, 1, 2}, {JOB, 1, 3}, {JOB, 2, 3}, {EXTRA, 1, 4}, {EXTRA, 2, 4}});
    check_accepted(&shared, 4);
    check_numbers(&shared, 0, LIST(0, 1, 2, 2, 3), 5);
}

// A block that was pasted twice. Without the second copy it is plan A again; without one arc of it the other is still found.
static void pasted(void) {
    plan_file plan = example("pasted"), a = example("a");
    check_refused(plan, YAFFLEDESK_REPEATED_ARC, 7);
    memmove(plan.bytes + AT(7), plan.bytes + AT(8), RECORD);
    plan.len -= RECORD;
    check_refused(renamed(plan, "pasted, without record 7"), YAFFLEDESK_REPEATED_ARC, 7);
    plan.len -= RECORD;
    check(plan.len == a.len && memcmp(plan.bytes, a.bytes, a.len) == 0, "pasted, without the second copy, is not plan A");
    check_accepted(&plan, 4);
}

void repeats(void) {
    refused();
    beside();
    every_pair();
    fine();
    pasted();
}
