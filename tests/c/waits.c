// Waits on arcs: bytes 4 and 5 of an arc of either type, the periods between the finish of its first activity and the start of its second.
#include "checks.h"

enum { JOB = 3, EXTRA = 4, LONGEST = 65535 };
#define AT(place) ((size_t)(place) * RECORD)

static void set_wait(plan_file *plan, size_t place, unsigned wait) {
    plan->bytes[AT(place) + 4] = (uint8_t)(wait & 255);
    plan->bytes[AT(place) + 5] = (uint8_t)(wait >> 8);
}

static void append_arc(plan_file *plan, uint8_t type, uint8_t from, uint8_t to, unsigned wait) {
    append(plan, type, from, to);
    set_wait(plan, plan->len / RECORD - 1, wait);
}

// Idle activities of duration 1, all in a row by arcs of one type and wait.
static plan_file row_of(const char *name, unsigned count, uint8_t type, unsigned wait) {
    plan_file plan = renamed(idle_plan(count), name);
    for (unsigned i = 1; i < count; i++) append_arc(&plan, type, (uint8_t)i, (uint8_t)(i + 1), wait);
    return plan;
}

// Of four idle activities, 1 to 2 is a job arc, record 5, and 2 to 3 an extra arc, record 6. Their bytes 4 and 5 may be anything, and are read with the lower
// byte first. All others are spare, whatever the wait, and the wait hides no other fault.
static void records(void) {
    static const unsigned tried[] = {0, 1, 255, 256, 258, 32768, LONGEST};
    for (size_t n = 0; n < sizeof tried / sizeof *tried; n++) {
        const uint32_t wait = tried[n];
        plan_file plan = renamed(idle_plan(4), "a job arc and an extra arc with waits");
        append_arc(&plan, JOB, 1, 2, wait), append_arc(&plan, EXTRA, 2, 3, LONGEST - wait);
        check_accepted(&plan, 4);
        check_numbers(&plan, 0, LIST(0, 1 + wait, 2 + LONGEST, 0, 3 + LONGEST), 5);
        for (size_t byte = 3; byte < RECORD; byte = byte == 3 ? 6 : byte + 1) {
            check_refused(renamed(with_byte(plan, AT(5) + byte, 1), "a spare byte of a job arc with a wait"), YAFFLEDESK_BAD_SPARE, 5);
            check_refused(renamed(with_byte(plan, AT(6) + byte, 255), "a spare byte of an extra arc with a wait"), YAFFLEDESK_BAD_SPARE, 6);
        }
        check_refused(renamed(with_byte(plan, AT(5) + 2, 1), "a wait from 1 to 1"), YAFFLEDESK_BAD_FIELD, 5);
        check_refused(renamed(with_byte(plan, AT(6), JOB + 2), "a wait in an unknown type"), YAFFLEDESK_BAD_TYPE, 6);
        check_refused(renamed(with_byte(plan, AT(6) + 2, 1), "a wait in a circle"), YAFFLEDESK_PLAN_CIRCLE, 1);
    }
}

// With another wait it is the same pair, and refused as 13.
static void repeated(void) {
    for (uint8_t type = JOB; type <= EXTRA; type++)
        for (unsigned wait = 0; wait <= 256; wait += 64) {
            plan_file plan = renamed(idle_plan(4), "a pair twice with different waits");
            append_arc(&plan, type, 1, 2, wait), append_arc(&plan, type, 2, 3, wait), append_arc(&plan, type, 1, 2, 256 - wait + 1);
            check_refused(plan, YAFFLEDESK_REPEATED_ARC, 7);
            check_refused(renamed(with_byte(plan, AT(7) + 3, 1), "the same and a spare byte"), YAFFLEDESK_BAD_SPARE, 7);
        }
}

// A pair that is a job arc and an extra arc: the longer wait decides, whichever type has it.
static void both_types(void) {
    static const struct {
        unsigned job, extra, longer;
    } tried[] = {{0, 0, 0}, {0, 9, 9}, {9, 0, 9}, {4, 9, 9}, {9, 4, 9}, {255, 256, 256}, {256, 255, 256}, {1, LONGEST, LONGEST}, {LONGEST, 1, LONGEST}};
    for (size_t n = 0; n < sizeof tried / sizeof *tried; n++) {
        const uint32_t longer = tried[n].longer, *worked = LIST(5, 1);
        plan_file plan = renamed(idle_plan(2), "a pair in both types with two waits");
        append_arc(&plan, JOB, 1, 2, tried[n].job), append_arc(&plan, EXTRA, 1, 2, tried[n].extra);
        check_accepted(&plan, 2);
        check_numbers(&plan, 0, LIST(0, 1 + longer, 2 + longer), 3);
        check_answer(plan.name, "on time", crew(&plan, LIST(7, 12 + longer), worked), YAFFLEDESK_DONE, 0);
        check_answer(plan.name, "too early", crew(&plan, LIST(7, 11 + longer), worked), YAFFLEDESK_BROKEN_ARC, 1 + 256 * 2);
    }
}

// The latest starts that there are: 64 activities in a row with durations and waits at their greatest. Then a full file whose arcs all have the longest wait.
static void latest(void) {
    uint32_t expected[65];
    for (uint8_t type = JOB; type <= EXTRA; type++) {
        plan_file plan = row_of("the longest row", 64, type, LONGEST);
        for (unsigned i = 0; i < 64; i++) plan.bytes[AT(i) + 2] = plan.bytes[AT(i) + 3] = 255, expected[i] = i * 131070;
        expected[64] = 8322945; // 63 * 131,070 + 65,535: after the last of them nobody waits
        check_accepted(&plan, 64);
        check_numbers(&plan, 0, expected, 65);

        plan = renamed(plan, "the longest row, from 64 to 1");
        for (size_t at = AT(65); at < plan.len; at += RECORD) plan.bytes[at + 1]++, plan.bytes[at + 2]--;
        for (unsigned i = 0; i < 64; i++) expected[i] = (63 - i) * 131070;
        check_accepted(&plan, 64);
        check_numbers(&plan, 0, expected, 65);
    }
    plan_file full = renamed(full_plan(), "a full file with waits");
    for (size_t place = 65; place < full.len / RECORD; place++) set_wait(&full, place, LONGEST);
    // all pairs upwards are arcs, but for those from 56 to 60 and above, and those from 57 on
    for (unsigned i = 1; i <= 64; i++) expected[i - 1] = 65536 * (i <= 57 ? i - 1 : i <= 59 ? 56 : 55);
    expected[64] = 65536 * 56 + 1;
    check_accepted(&full, 64);
    check_numbers(&full, 0, expected, 65);
}

// An arc is kept where start, worked duration and wait are at most the next start, and is broken a period sooner. Sums never wrap.
static void crews(void) {
    const uint32_t last = UINT32_MAX;
    for (uint8_t type = JOB; type <= EXTRA; type++) {
        plan_file plan = row_of("an arc of wait 300", 2, type, 300), most = row_of("an arc of wait 65,535", 2, type, LONGEST);
        check_answer(plan.name, "on time", crew(&plan, LIST(0, 301), LIST(1, 1)), YAFFLEDESK_DONE, 0);
        check_answer(plan.name, "a period too early", crew(&plan, LIST(0, 300), LIST(1, 1)), YAFFLEDESK_BROKEN_ARC, 1 + 256 * 2);
        check_answer(plan.name, "worked longer than in the file", crew(&plan, LIST(2, 309), LIST(7, 1)), YAFFLEDESK_DONE, 0);
        check_answer(plan.name, "the same a period too early", crew(&plan, LIST(2, 308), LIST(7, 1)), YAFFLEDESK_BROKEN_ARC, 1 + 256 * 2);
        check_answer(most.name, "as late as can be", crew(&most, LIST(last - 65536, last), LIST(1, last)), YAFFLEDESK_DONE, 0);
        check_answer(most.name, "a period too late", crew(&most, LIST(last - 65535, last), LIST(1, 1)), YAFFLEDESK_BROKEN_ARC, 1 + 256 * 2);
        check_answer(most.name, "a sum past 32 bits", crew(&most, LIST(last - 65535, 0), LIST(1, 1)), YAFFLEDESK_BROKEN_ARC, 1 + 256 * 2);
        check_answer(most.name, "worked to the last period", crew(&most, LIST(0, last), LIST(last, 1)), YAFFLEDESK_BROKEN_ARC, 1 + 256 * 2);
        check_answer(most.name, "the greatest sum", crew(&most, LIST(last, last), LIST(last, 1)), YAFFLEDESK_BROKEN_ARC, 1 + 256 * 2);
        check_answer(most.name, "a worked duration 0", crew(&most, LIST(0, 0), LIST(1, 0)), YAFFLEDESK_BAD_LISTS, 2);
    }
    plan_file several = renamed(idle_plan(4), "arcs not in the order of their ends");
    append_arc(&several, JOB, 3, 4, 5), append_arc(&several, EXTRA, 2, 4, 0), append_arc(&several, EXTRA, 2, 3, 5), append_arc(&several, EXTRA, 1, 4, 30);
    check_answer(several.name, "on time", crew(&several, LIST(0, 0, 25, 31), LIST(1, 1, 1, 1)), YAFFLEDESK_DONE, 0);
    check_answer(several.name, "four broken", crew(&several, LIST(0, 0, 0, 0), LIST(1, 1, 1, 1)), YAFFLEDESK_BROKEN_ARC, 1 + 256 * 4);
    check_answer(several.name, "three broken, one without its wait", crew(&several, LIST(0, 31, 32, 31), LIST(1, 1, 1, 1)), YAFFLEDESK_BROKEN_ARC, 2 + 256 * 3);
    check_answer(several.name, "one broken", crew(&several, LIST(0, 0, 26, 31), LIST(1, 1, 1, 1)), YAFFLEDESK_BROKEN_ARC, 3 + 256 * 4);
    // two jobs of the whole crew with a wait between them, and another in the wait, which occupies nobody
    plan_file gap = renamed(idle_plan(3), "a job in a wait");
    for (unsigned i = 0; i <= 3; i++) gap.bytes[AT(i) + 4] = 2;
    append_arc(&gap, JOB, 1, 2, 3);
    check_answer(gap.name, "just within", crew(&gap, LIST(0, 5, 2), LIST(2, 2, 3)), YAFFLEDESK_DONE, 0);
    check_answer(gap.name, "a period sooner", crew(&gap, LIST(0, 5, 1), LIST(2, 2, 3)), YAFFLEDESK_CREW_OVERLOAD, 1 + 256 * 2);
    check_answer(gap.name, "a period later", crew(&gap, LIST(0, 5, 3), LIST(2, 2, 3)), YAFFLEDESK_CREW_OVERLOAD, 1 + 256 * 6);
}

// Every answer and all bytes that do not read waits, of a plan and of the same with the longest waits on every arc.
static void unread(const char *name) {
    static uint8_t before[LENT_BYTES];
    const plan_file plan = example(name);
    plan_file twin = plan;
    for (size_t place = 0; place < twin.len / RECORD; place++)
        if (twin.bytes[AT(place)] >= JOB) set_wait(&twin, place, LONGEST - (unsigned)place);
    check(memcmp(plan.bytes, twin.bytes, plan.len) != 0, "%s has no arcs", name);
    check(yaffledesk_verdict(plan.bytes, plan.len) == yaffledesk_verdict(twin.bytes, twin.len), "%s: another verdict with other waits", name);
    check(yaffledesk_set(plan.bytes, plan.len) == yaffledesk_set(twin.bytes, twin.len), "%s: another set with other waits", name);
    uint64_t answer = needs(&plan, 8);
    memcpy(before, lent_numbers, sizeof lent_numbers);
    check(needs(&twin, 8) == answer && memcmp(before, lent_numbers, sizeof lent_numbers) == 0, "%s: other needs with other waits", name);
    answer = overload(&plan, 24);
    memcpy(before, lent_bytes, sizeof lent_bytes);
    check(overload(&twin, 24) == answer && memcmp(before, lent_bytes, sizeof lent_bytes) == 0, "%s: another overload record with other waits", name);
    for (uint64_t kind = 1; kind <= 2; kind++) {
        answer = flow(&plan, kind, LENT_BYTES - 1);
        memcpy(before, lent_bytes, sizeof lent_bytes);
        check(flow(&twin, kind, LENT_BYTES - 1) == answer && memcmp(before, lent_bytes, sizeof lent_bytes) == 0, "%s: another flow with other waits", name);
    }
}

// The example: starts 0, 0, 12, 5 and 15 by its waits, and the end at 15.
static void cured(void) {
    const plan_file plan = example("cured");
    static const uint8_t records[][5] = {{1, 0, 1, 2, 0}, {1, 0, 2, 2, 0}, {1, 1, 3, 2, 0}, {1, 2, 4, 1, 1}, {1, 2, 6, 1, 0}, {1, 3, 6, 2, 0}, {1, 4, 6, 1, 0}};
    static const char *const page[] = {"KIND 1   1",
                                       "  0   1        2          0",
                                       "  0   2        2          0",
                                       "  2   4        1          5",
                                       "  1   3        2         12",
                                       "  2   6        1         15",
                                       "  3   6        2         15",
                                       "  4   6        1         15"};
    check_accepted(&plan, 5);
    check_numbers(&plan, 4, LIST(0, 0, 12, 5, 15, 15), 6);
    check_flow(&plan, YAFFLEDESK_FLOW_BYTES(5), records, 7);
    // in the order of these starts, where without waits the handover from 1 to 3 would come before the one from 2 to 4
    check_page(&plan, PAGE, page, 8);
    const uint32_t *worked = LIST(2, 4, 1, 2, 0);
    check_answer(plan.name, "on time", crew(&plan, LIST(0, 0, 12, 5, 15), worked), YAFFLEDESK_DONE, 0);
    check_answer(plan.name, "3 too early", crew(&plan, LIST(0, 0, 11, 5, 15), worked), YAFFLEDESK_BROKEN_ARC, 1 + 256 * 3);
    check_answer(plan.name, "3 by the shorter wait", crew(&plan, LIST(0, 0, 10, 5, 15), worked), YAFFLEDESK_BROKEN_ARC, 1 + 256 * 3);
    check_answer(plan.name, "4 too early", crew(&plan, LIST(0, 0, 12, 4, 15), worked), YAFFLEDESK_BROKEN_ARC, 2 + 256 * 4);
    check_answer(plan.name, "the milestone too early", crew(&plan, LIST(0, 0, 12, 5, 14), worked), YAFFLEDESK_BROKEN_ARC, 3 + 256 * 5);
    check_answer(plan.name, "the milestone after 4 at once", crew(&plan, LIST(0, 0, 12, 13, 15), worked), YAFFLEDESK_DONE, 0);
}

// A milestone between two activities, as the first of all and as the last: waits count before it and after it, and the end follows it.
static void milestone(void) {
    for (unsigned place = 0; place <= 2; place++) {
        plan_file plan = with_byte(row_of("a milestone and waits", 3, EXTRA, 0), AT(place) + 2, 0);
        set_wait(&plan, 4, 6), set_wait(&plan, 5, 8);
        const uint32_t second = 6 + (place != 0), third = second + 8 + (place != 1), end = third + (place != 2);
        check_numbers(&plan, 0, LIST(0, second, third, end), 4);
        const uint32_t *worked = LIST(place != 0, place != 1, place != 2);
        check_answer(plan.name, "on time", crew(&plan, LIST(0, second, third), worked), YAFFLEDESK_DONE, 0);
        check_answer(plan.name, "the second too early", crew(&plan, LIST(0, second - 1, third), worked), YAFFLEDESK_BROKEN_ARC, 1 + 256 * 2);
        check_answer(plan.name, "the third too early", crew(&plan, LIST(0, second, third - 1), worked), YAFFLEDESK_BROKEN_ARC, 2 + 256 * 3);
    }
}

void waits(void) {
    static const char *const names[] = {"a", "b", "d", "e", "e_job", "hall", "handed_back", "cured", "pasted", "briefed", "comfort"};
    records();
    repeated();
    both_types();
    latest();
    crews();
    for (size_t n = 0; n < sizeof names / sizeof *names; n++) unread(names[n]);
    cured();
    milestone();
}
