// What is refused of a file by itself, by every operation alike.
#include "checks.h"

static plan_file a;

// Cause 1, by the length alone.
static void lengths(void) {
    check_refused(renamed(with_length(a, 0), "no bytes"), YAFFLEDESK_BAD_LENGTH, 0);
    check_refused(renamed(with_length(a, 23), "23 bytes"), YAFFLEDESK_BAD_LENGTH, 0);
    check_refused(renamed(with_length(a, a.len + 1), "A and one byte"), YAFFLEDESK_BAD_LENGTH, 0);

    plan_file full = full_plan();
    check(full.len == 49152, "%s: %zu bytes", full.name, full.len);
    check_accepted(&full, 64);
    check_refused(renamed(with_length(full, full.len + 1), "49,153 bytes"), YAFFLEDESK_BAD_LENGTH, 0);
    append(&full, 4, 63, 64);
    check_refused(renamed(full, "2,049 records"), YAFFLEDESK_BAD_LENGTH, 0);
}

// Causes 2, 3, 12 and 4: plan A with one byte changed, refused at a record's place.
static void records(void) {
    static const byte_fault faults[] = {
        {"type 0", 0, 0, YAFFLEDESK_BAD_TYPE, 0},
        {"unknown type", ARC_2_4, 255, YAFFLEDESK_BAD_TYPE, 6},
        {"job arc after an extra arc", ARC_2_4, 3, YAFFLEDESK_BAD_TYPE, 6},
        {"second crew record", ARC_1_2, 2, YAFFLEDESK_BAD_TYPE, 5},
        {"activity after the crew record", ARC_1_2, 1, YAFFLEDESK_BAD_TYPE, 5},
        {"arc before the crew record", 3 * RECORD, 4, YAFFLEDESK_BAD_TYPE, 3},
        {"number not in file order", 1 * RECORD + 1, 1, YAFFLEDESK_BAD_FIELD, 1},
        {"duration 0", 2, 0, YAFFLEDESK_MILESTONE_DEMAND, 0},
        {"demand beyond K", 6, 1, YAFFLEDESK_BAD_FIELD, 4},
        {"no kinds", CREW + 1, 0, YAFFLEDESK_BAD_FIELD, 4},
        {"nine kinds", CREW + 1, 9, YAFFLEDESK_BAD_FIELD, 4},
        {"availability beyond K", CREW + 6, 1, YAFFLEDESK_BAD_FIELD, 4},
        {"arc from 0", ARC_1_2 + 1, 0, YAFFLEDESK_BAD_FIELD, 5},
        {"arc to the end", ARC_2_4 + 2, 5, YAFFLEDESK_BAD_FIELD, 6},
        {"arc from 1 to 1", ARC_1_2 + 2, 1, YAFFLEDESK_BAD_FIELD, 5},
        {"spare byte of an activity", 20, 1, YAFFLEDESK_BAD_SPARE, 0},
        {"spare byte 2 of the crew", CREW + 2, 1, YAFFLEDESK_BAD_SPARE, 4},
        {"spare byte 23 of the crew", CREW + 23, 255, YAFFLEDESK_BAD_SPARE, 4},
        {"spare byte 3 of an arc", ARC_1_2 + 3, 1, YAFFLEDESK_BAD_SPARE, 5},
        {"spare byte 23 of an arc", ARC_2_4 + 23, 1, YAFFLEDESK_BAD_SPARE, 6},
    };
    check_faults(a, faults, sizeof faults / sizeof *faults);
    check_refused(renamed(with_length(a, CREW), "no crew record"), YAFFLEDESK_BAD_TYPE, 4);
    check_refused(renamed(idle_plan(65), "65 activities"), YAFFLEDESK_BAD_FIELD, 64);
}

// Causes 5 and 6.
static void circles(void) {
    check_refused(example("e"), YAFFLEDESK_PLAN_CIRCLE, 1);
    check_refused(example("e_job"), YAFFLEDESK_JOB_CIRCLE, 1);
}

void refusals(void) {
    a = example("a");
    lengths();
    records();
    circles();
}
