// What the operations answer and write of plans that are read, and crew sheets: plans A to F, and every crew answer of document 01.
#include "checks.h"

static plan_file a, b, c, d, f, f5, hall;
// Numbers that are neither 0 nor 1, though some would be if only their low bits were looked at.
static const uint64_t wide[] = {2, 256, 257, (uint64_t)1 << 32, (uint64_t)1 << 32 | 1, (uint64_t)1 << 63 | 1, UINT64_MAX};
enum { WIDE = sizeof wide / sizeof *wide };

// The least and the greatest count of activities.
static void counts(void) {
    plan_file most = idle_plan(64), none = renamed(with_byte(idle_plan(0), 4, 4), "no activities");
    check_answer(most.name, "Verdict", yaffledesk_verdict(most.bytes, most.len), YAFFLEDESK_DONE, 64 + 256 * 1);
    check_answer(most.name, "Starts", starts(&most, 65), YAFFLEDESK_DONE, 65);
    check_answer(most.name, "Flow", flow(&most, 1, 51480), YAFFLEDESK_DONE, 0);
    check_answer(most.name, "Flow, short", flow(&most, 1, 51479), YAFFLEDESK_TOO_SHORT, 51480);
    check_page(&most, PAGE, (const char *[]){"KIND 1   1"}, 1);

    check_answer(none.name, "Verdict", yaffledesk_verdict(none.bytes, none.len), YAFFLEDESK_DONE, 0 + 256 * 1);
    check_answer(none.name, "Needs", needs(&none, 1), YAFFLEDESK_DONE, 1);
    check(lent_numbers[0] == 0, "%s: need %" PRIu32, none.name, lent_numbers[0]);
    check_flow(&none, 24, (const uint8_t[][5]){{1, 0, 1, 4, 0}}, 1);
    check_page(&none, PAGE, (const char *[]){"KIND 1   1", "  0   1        4          0"}, 2);
    check_answer(none.name, "Crew check", yaffledesk_crew_check(none.bytes, none.len, lent_numbers, 0, lent_numbers, 0), YAFFLEDESK_DONE, 0);
}

static void verdicts(void) {
    check_accepted(&a, 4);
    check_accepted(&d, 4);
    check_accepted(&f, 1);
    check_overloaded(&b, 4, 1, 6, 3, 14);
    check_overloaded(&c, 4, 1, 8, 4, 15);
    check_overloaded(&f5, 1, 1, 5, 1, 1);

    check_numbers(&a, 4, (const uint32_t[]){0, 1, 0, 3, 4}, 5);
    check_numbers(&b, 6, (const uint32_t[]){0, 1, 1, 1, 4}, 5);
    check_numbers(&c, 8, (const uint32_t[]){0, 0, 0, 0, 3}, 5);
    check_numbers(&d, 4, (const uint32_t[]){0, 0, 2, 2, 5}, 5);
    check_numbers(&f, 4, (const uint32_t[]){0, 1}, 2);
    check_numbers(&f5, 5, (const uint32_t[]){0, 1}, 2);

    plan_file second = with_byte(with_byte(with_byte(f, 6, 5), RECORD + 1, 2), RECORD + 6, 3); // a kind 2, demand 5 of 3
    second = renamed(second, "F with kind 2 overloaded");
    check_overloaded(&second, 1, 2, 5, 1, 1);
    check_answer(second.name, "Needs", needs(&second, 2), YAFFLEDESK_DONE, 2);
    check(lent_numbers[0] == 4 && lent_numbers[1] == 5, "%s: needs %" PRIu32 ", %" PRIu32, second.name, lent_numbers[0], lent_numbers[1]);
    check_answer(second.name, "Needs, short", needs(&second, 1), YAFFLEDESK_TOO_SHORT, 2);
}

// Plan D's flow is free in part: into and out of each activity goes 2, out of the start and into the end 4, along the order, ascending.
static void flow_of_d(void) {
    uint32_t in[6] = {0}, out[6] = {0};
    uint64_t count = YAFFLEDESK_REST(flow(&d, 1, YAFFLEDESK_FLOW_BYTES(4)));
    check(count >= 6 && count <= 8, "D: %" PRIu64 " flow records", count);
    for (size_t n = 0; n < count && n < 15; n++) {
        const uint8_t *r = lent_bytes + RECORD * n;
        unsigned from = r[YAFFLEDESK_AT_FROM], to = r[YAFFLEDESK_AT_TO], ordered = from >= 1 && from <= 2 && to >= 3 && to <= 4;
        check(r[0] == YAFFLEDESK_FLOW_RECORD && r[YAFFLEDESK_AT_KIND] == 1 && yaffledesk_units(r) > 0, "D: flow record %zu", n);
        check(ordered || (from == 0 && to >= 1 && to <= 5) || (to == 5 && from <= 4), "D: units from %u to %u", from, to);
        check(r[YAFFLEDESK_AT_ADDED] == ordered, "D: added mark %u from %u to %u", r[YAFFLEDESK_AT_ADDED], from, to);
        check(n == 0 || memcmp(r - RECORD + 2, r + 2, 2) < 0, "D: flow record %zu is out of order", n);
        if (from < 6) out[from] += yaffledesk_units(r);
        if (to < 6) in[to] += yaffledesk_units(r);
    }
    for (unsigned i = 0; i <= 5; i++)
        check(in[i] == (i == 0 ? 0 : i == 5 ? 4 : 2) && out[i] == (i == 5 ? 0 : i == 0 ? 4 : 2), "D: in %" PRIu32 " and out %" PRIu32 " of %u", in[i], out[i], i);
}

static void flows(void) {
    static const uint8_t of_a[][5] = {{1, 0, 1, 2, 0}, {1, 0, 3, 2, 0}, {1, 1, 2, 2, 1}, {1, 2, 4, 2, 1}, {1, 3, 5, 2, 0}, {1, 4, 5, 2, 0}};
    static const uint8_t of_job[][5] = {{1, 0, 1, 2, 0}, {1, 0, 3, 2, 0}, {1, 1, 2, 2, 0}, {1, 2, 4, 2, 1}, {1, 3, 5, 2, 0}, {1, 4, 5, 2, 0}};
    static const uint8_t of_more[][5] = {{1, 0, 1, 4, 0}, {1, 0, 2, 2, 0}, {1, 1, 2, 4, 0}};
    plan_file job = renamed(with_byte(a, ARC_1_2, 3), "A with 1 to 2 as a job arc");
    plan_file more = renamed(with_byte(f, RECORD + 4, 6), "F with 6 available");

    check_flow(&a, YAFFLEDESK_FLOW_BYTES(4), of_a, 6);
    check_flow(&a, YAFFLEDESK_FLOW_BYTES(64), of_a, 6);
    check_flow(&job, YAFFLEDESK_FLOW_BYTES(4), of_job, 6);
    check_flow(&f, YAFFLEDESK_FLOW_BYTES(1), (const uint8_t[][5]){{1, 0, 1, 4, 0}, {1, 1, 2, 4, 0}}, 2);
    check_flow(&more, YAFFLEDESK_FLOW_BYTES(1), of_more, 3);
    flow_of_d();
    check_answer("A", "Flow, short", flow(&a, 1, 359), YAFFLEDESK_TOO_SHORT, 360);
    check_answer("A", "Flow of kind 0", flow(&a, 0, 0), YAFFLEDESK_NO_SUCH_KIND, 1);
    for (size_t i = 0; i < WIDE; i++) check_answer("A", "Flow of no kind", flow(&a, wide[i], 0), YAFFLEDESK_NO_SUCH_KIND, 1);
}

static void sheets(void) {
    static const char *const of_a[] = {"KIND 1   1",
                                       "  0   1        2          0",
                                       "  0   3        2          0",
                                       "  1   2        2          1",
                                       "  2   4        2          3",
                                       "  3   5        2          4",
                                       "  4   5        2          4"};
    check_page(&a, PAGE, of_a, 7);
    check_page(&a, YAFFLEDESK_FLOW_BYTES(64), of_a, 7);
    for (uint64_t page = 1; page <= 3; page++) check_answer("hall", "Sheet", sheet(&hall, 1, page, PAGE), YAFFLEDESK_DONE, 3);
    check_answer("hall", "Sheet of kind 2", sheet(&hall, 2, 1, PAGE), YAFFLEDESK_DONE, 1);
    check_answer("hall", "Sheet, page 4", sheet(&hall, 1, 4, PAGE), YAFFLEDESK_NO_PAGE, 3);
    check_answer("hall", "Sheet of kind 2, page 2", sheet(&hall, 2, 2, PAGE), YAFFLEDESK_NO_PAGE, 1);

    check_answer("A", "Sheet, page 0", sheet(&a, 1, 0, PAGE), YAFFLEDESK_NO_PAGE, 1);
    check_answer("A", "Sheet, short", sheet(&a, 1, 1, PAGE - 1), YAFFLEDESK_TOO_SHORT, PAGE);
    check_answer("A", "Sheet of kind 0", sheet(&a, 0, 1, PAGE), YAFFLEDESK_NO_SUCH_KIND, 1);
    for (size_t i = 0; i < WIDE; i++) {
        check_answer("A", "Sheet, no such page", sheet(&a, 1, wide[i], PAGE), YAFFLEDESK_NO_PAGE, 1);
        check_answer("A", "Sheet, no such page, short", sheet(&a, 1, wide[i], 0), YAFFLEDESK_TOO_SHORT, PAGE);
        check_answer("A", "Sheet of no kind", sheet(&a, wide[i], wide[i], 0), YAFFLEDESK_NO_SUCH_KIND, 1);
    }
}

static void crews(void) {
    const uint32_t last = UINT32_MAX, *of_a = LIST(1, 2, 3, 1), *ones = LIST(1, 1, 1, 1, 1), *zeros = LIST(0, 0, 0, 0, 0);
    check_answer("A", "starts 0 1 0 3", crew(&a, LIST(0, 1, 0, 3), of_a), YAFFLEDESK_DONE, 0);
    check_answer("A", "starts 0 1 0 2", crew(&a, LIST(0, 1, 0, 2), of_a), YAFFLEDESK_BROKEN_ARC, 2 + 256 * 4);
    check_answer("A", "a broken arc and an overload", crew(&a, zeros, of_a), YAFFLEDESK_BROKEN_ARC, 1 + 256 * 2);
    check_answer("A", "a finish past 32 bits", crew(&a, LIST(last, 0, 0, 0), of_a), YAFFLEDESK_BROKEN_ARC, 1 + 256 * 2);
    check_answer("C", "all at once", crew(&c, zeros, ones), YAFFLEDESK_CREW_OVERLOAD, 1 + 256 * 1);
    check_answer("C", "two by two", crew(&c, LIST(0, 0, 1, 1), ones), YAFFLEDESK_DONE, 0);
    check_answer("C", "durations 2 2 1 1", crew(&c, LIST(0, 0, 1, 1), LIST(2, 2, 1, 1)), YAFFLEDESK_CREW_OVERLOAD, 1 + 256 * 2);
    check_answer("f5", "the last period", crew(&f5, &last, ones), YAFFLEDESK_CREW_OVERLOAD, 1 + 256 * 4294967296);
    check_answer("A", "a worked duration 0", crew(&a, zeros, LIST(1, 2, 3, 0)), YAFFLEDESK_BAD_LISTS, 4);
    for (size_t i = 3; i <= 5; i++)
        for (size_t j = 3; j <= 5; j++)
            if (i != 4 || j != 4) check_answer("A", "lists not 4 long", yaffledesk_crew_check(a.bytes, a.len, zeros, i, ones, j), YAFFLEDESK_BAD_LISTS, 4);
}

void results(void) {
    a = example("a"), b = example("b"), c = example("c"), d = example("d"), f = example("f"), f5 = example("f5"), hall = example("hall");
    counts();
    verdicts();
    flows();
    sheets();
    crews();
}
