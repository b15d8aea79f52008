// Milestones: activities of duration 0 in the file, which have no demands. They are never at work, and pass order on.
#include "checks.h"

// Number 12, in a file of three activities: the second has duration 0, the crew is record 3 and has one kind.
static void refused(void) {
    enum { FIRST = 0, SECOND = 1 * RECORD, THIRD = 2 * RECORD, CREW_RECORD = 3 * RECORD };
    const plan_file fine = renamed(with_byte(idle_plan(3), SECOND + 2, 0), "a milestone between two activities");
    check_accepted(&fine, 3);
    for (size_t at = SECOND + 4; at < SECOND + 20; at++) { // both bytes of each kind; all but kind 1 are beyond K, too
        check_refused(renamed(with_byte(fine, at, 1), "duration 0 with a demand"), YAFFLEDESK_MILESTONE_DEMAND, 1);
        check_refused(renamed(with_byte(with_byte(fine, at, 255), CREW_RECORD + 1, 8), "the same of eight kinds"), YAFFLEDESK_MILESTONE_DEMAND, 1);
    }
    const plan_file plan = with_byte(fine, SECOND + 4, 2);
    static const byte_fault beside[] = {
        {"12 and a spare byte", SECOND + 20, 1, YAFFLEDESK_MILESTONE_DEMAND, 1},
        {"12 and the last spare byte", SECOND + 23, 255, YAFFLEDESK_MILESTONE_DEMAND, 1},
        {"12 and a wrong number", SECOND + 1, 3, YAFFLEDESK_BAD_FIELD, 1},
        {"12 and an unknown type", SECOND, 5, YAFFLEDESK_BAD_TYPE, 1},
        {"an earlier type", FIRST, 3, YAFFLEDESK_BAD_TYPE, 0},
        {"an earlier number", FIRST + 1, 2, YAFFLEDESK_BAD_FIELD, 0},
        {"an earlier spare byte", FIRST + 23, 1, YAFFLEDESK_BAD_SPARE, 0},
        {"an earlier demand beyond K", FIRST + 6, 1, YAFFLEDESK_MILESTONE_DEMAND, 1},
        {"a later type", THIRD, 4, YAFFLEDESK_MILESTONE_DEMAND, 1},
        {"a later number", THIRD + 1, 0, YAFFLEDESK_MILESTONE_DEMAND, 1},
        {"no kinds", CREW_RECORD + 1, 0, YAFFLEDESK_MILESTONE_DEMAND, 1},
    };
    check_faults(plan, beside, sizeof beside / sizeof *beside);
    check_refused(renamed(with_length(plan, CREW_RECORD), "12 and no crew record"), YAFFLEDESK_MILESTONE_DEMAND, 1);
    check_refused(renamed(with_length(plan, plan.len - 1), "12 and a byte too few"), YAFFLEDESK_BAD_LENGTH, 0);
    check_refused(renamed(with_byte(fine, SECOND + 20, 1), "a milestone with a spare byte"), YAFFLEDESK_BAD_SPARE, 1);
    check_refused(renamed(with_byte(fine, SECOND + 1, 1), "a milestone with a wrong number"), YAFFLEDESK_BAD_FIELD, 1);

    plan_file most = idle_plan(65);
    most.bytes[64 * RECORD + 2] = 0, most.bytes[64 * RECORD + 4] = 1;
    check_refused(renamed(most, "12 as the 65th activity"), YAFFLEDESK_BAD_FIELD, 64);
    check_refused(renamed(with_byte(example("e"), 2, 0), "12 and a circle"), YAFFLEDESK_MILESTONE_DEMAND, 0);
    plan_file round = renamed(fine, "a circle through a milestone");
    append(&round, 3, 1, 2), append(&round, 3, 2, 1);
    check_refused(round, YAFFLEDESK_JOB_CIRCLE, 1);
}

// So many activities, the first and the last of two workers each and of durations 3 and 1, the others milestones, and a crew of two. They are in a row,
// by job arcs from an odd number and by extra arcs from an even one.
static plan_file row_of(unsigned count) {
    plan_file plan = {"milestones between two jobs", 0, {0}};
    for (unsigned i = 1; i <= count; i++) append(&plan, 1, (uint8_t)i, i == 1 ? 3 : i == count ? 1 : 0);
    append(&plan, 2, 1, 0);
    plan.bytes[4] = plan.bytes[(count - 1) * RECORD + 4] = plan.bytes[count * RECORD + 4] = 2;
    for (unsigned type = 3; type <= 4; type++)
        for (unsigned i = type - 2; i < count; i += 2) append(&plan, (uint8_t)type, (uint8_t)i, (uint8_t)(i + 1));
    return plan;
}

// A milestone passes order on: the jobs on both sides of it are never at work at once, and hand over past it.
static void order(void) {
    plan_file row = row_of(3), loose = renamed(with_length(row, row.len - RECORD), "a milestone after the first of two jobs"), longest = row_of(64);
    check_accepted(&row, 3);
    check_numbers(&row, 2, LIST(0, 3, 3, 4), 4);
    check_flow(&row, YAFFLEDESK_FLOW_BYTES(3), (const uint8_t[][5]){{1, 0, 1, 2, 0}, {1, 1, 3, 2, 1}, {1, 3, 4, 2, 0}}, 3);
    check_page(&row, PAGE, (const char *[]){"KIND 1   1", "  0   1        2          0", "  1   3        2          3", "  3   4        2          4"}, 4);
    check_overloaded(&loose, 3, 1, 4, 2, 5);
    check_numbers(&loose, 4, LIST(0, 3, 0, 3), 4);

    uint32_t expected[65] = {0};
    for (size_t i = 1; i < 64; i++) expected[i] = 3;
    expected[64] = 4;
    check_accepted(&longest, 64);
    check_numbers(&longest, 2, expected, 65);
    check_flow(&longest, YAFFLEDESK_FLOW_BYTES(64), (const uint8_t[][5]){{1, 0, 1, 2, 0}, {1, 1, 64, 2, 1}, {1, 64, 65, 2, 0}}, 3);
    check_page(&longest, PAGE, (const char *[]){"KIND 1   1", "  0   1        2          0", "  1  64        2          3", " 64  65        2          4"}, 4);

    plan_file hall = example("handed_back");
    check_accepted(&hall, 5);
    check_numbers(&hall, 4, LIST(0, 0, 5, 5, 5, 9), 6);
    size_t records = YAFFLEDESK_REST(flow(&hall, 1, YAFFLEDESK_FLOW_BYTES(5)));
    for (const uint8_t *r = lent_bytes; r < lent_bytes + RECORD * records; r += RECORD)
        check(r[YAFFLEDESK_AT_FROM] != 3 && r[YAFFLEDESK_AT_TO] != 3, "%s: a record names the milestone", hall.name);
}

// A file of milestones alone, with four available, which go from the start to the end.
static void alone(void) {
    static const uint32_t zeros[65];
    for (unsigned count = 1; count <= 64; count += 63) {
        plan_file plan = {"milestones alone", 0, {0}};
        for (unsigned i = 1; i <= count; i++) append(&plan, 1, (uint8_t)i, 0);
        append(&plan, 2, 1, 0);
        plan.bytes[count * RECORD + 4] = 4;
        char line[41];
        snprintf(line, sizeof line, "  0 %3u        4          0", count + 1);
        check_accepted(&plan, count);
        check_numbers(&plan, 0, zeros, count + 1);
        check_flow(&plan, YAFFLEDESK_FLOW_BYTES(count), (const uint8_t[][5]){{1, 0, (uint8_t)(count + 1), 4, 0}}, 1);
        check_page(&plan, PAGE, (const char *[]){"KIND 1   1", line}, 2);
        check_answer(plan.name, "all at 0", crew(&plan, zeros, zeros), YAFFLEDESK_DONE, 0);
        uint32_t worked[64] = {0};
        worked[count - 1] = UINT32_MAX;
        check_answer(plan.name, "the last one worked", crew(&plan, zeros, worked), YAFFLEDESK_BAD_LISTS, count);
    }
}

// A milestone's worked duration is 0, every other one 1 or more. What an activity demands does not count.
static void crews(void) {
    const uint32_t last = UINT32_MAX, *fine = LIST(3, 0, 1);
    plan_file row = row_of(3), loose = with_length(row, row.len - RECORD), idle = idle_plan(2);
    check_answer(row.name, "the milestone on time", crew(&row, LIST(0, 3, 3), fine), YAFFLEDESK_DONE, 0);
    check_answer(row.name, "later", crew(&row, LIST(0, 7, 9), fine), YAFFLEDESK_DONE, 0);
    check_answer(row.name, "as late as can be", crew(&row, LIST(0, last, last), fine), YAFFLEDESK_DONE, 0);
    check_answer(row.name, "too early", crew(&row, LIST(0, 2, 3), fine), YAFFLEDESK_BROKEN_ARC, 1 + 256 * 2);
    check_answer(row.name, "too late", crew(&row, LIST(0, 4, 3), fine), YAFFLEDESK_BROKEN_ARC, 2 + 256 * 3);
    check_answer(loose.name, "both jobs at once", crew(&loose, LIST(0, 3, 0), fine), YAFFLEDESK_CREW_OVERLOAD, 1 + 256 * 1);

    check_answer(row.name, "the milestone worked 1", crew(&row, LIST(0, 3, 4), LIST(3, 1, 1)), YAFFLEDESK_BAD_LISTS, 3);
    check_answer(row.name, "it and a broken arc", crew(&row, LIST(0, 0, 0), LIST(3, last, 1)), YAFFLEDESK_BAD_LISTS, 3);
    check_answer(row.name, "the first worked 0", crew(&row, LIST(0, 3, 3), LIST(0, 0, 1)), YAFFLEDESK_BAD_LISTS, 3);
    check_answer(row.name, "the last worked 0", crew(&row, LIST(0, 3, 3), LIST(3, 0, 0)), YAFFLEDESK_BAD_LISTS, 3);
    check_answer(row.name, "a start too few", yaffledesk_crew_check(row.bytes, row.len, LIST(0, 3), 2, fine, 3), YAFFLEDESK_BAD_LISTS, 3);
    check_answer(row.name, "a duration too few", yaffledesk_crew_check(row.bytes, row.len, LIST(0, 3, 3), 3, fine, 2), YAFFLEDESK_BAD_LISTS, 3);

    check_answer(idle.name, "worked 1", crew(&idle, LIST(0, 0), LIST(1, 1)), YAFFLEDESK_DONE, 0);
    check_answer(idle.name, "the first worked 0", crew(&idle, LIST(0, 0), LIST(0, 1)), YAFFLEDESK_BAD_LISTS, 2);
    check_answer(idle.name, "the last worked 0", crew(&idle, LIST(0, 0), LIST(1, 0)), YAFFLEDESK_BAD_LISTS, 2);
}

void milestones(void) {
    refused();
    order();
    alone();
    crews();
}
