// See checks.h.
#include "checks.h"

#include <stdarg.h>
#include <stdlib.h>

unsigned passed, failed;

void check(int holds, const char *format, ...) {
    if (holds) {
        passed++;
        return;
    }
    failed++;
    va_list values;
    va_start(values, format);
    printf("FAIL: ");
    vprintf(format, values);
    printf("\n");
    va_end(values);
}

static unsigned seen[256]; // how often each number was an answer

void check_answer(const char *name, const char *what, uint64_t got, unsigned number, uint64_t rest) {
    seen[YAFFLEDESK_NUMBER(got)]++;
    check(YAFFLEDESK_NUMBER(got) == number && YAFFLEDESK_REST(got) == rest,
          "%s, %s: number %u with rest %" PRIu64 ", not %u with %" PRIu64, name, what, YAFFLEDESK_NUMBER(got), YAFFLEDESK_REST(got), number, rest);
}

void check_all_seen(void) {
    for (unsigned number = YAFFLEDESK_DONE; number <= YAFFLEDESK_REPEATED_ARC; number++) check(seen[number] > 0, "number %u was never given", number);
    check(seen[YAFFLEDESK_BROKEN_ARC] > 0 && seen[YAFFLEDESK_CREW_OVERLOAD] > 0, "a finding of the crew check was never given");
}

// ---- Plans ----

plan_file example(const char *name) {
    plan_file plan = {name, 0, {0}};
    char path[64];
    snprintf(path, sizeof path, "examples/%s.plan", name);
    FILE *file = fopen(path, "rb");
    if (file == NULL) {
        printf("%s: no such file\n%u passed, %u failed\n", path, passed, failed + 1);
        exit(1);
    }
    plan.len = fread(plan.bytes, 1, sizeof plan.bytes, file);
    fclose(file);
    return plan;
}

plan_file renamed(plan_file plan, const char *name) {
    plan.name = name;
    return plan;
}

plan_file with_byte(plan_file plan, size_t at, uint8_t value) {
    plan.bytes[at] = value;
    return plan;
}

plan_file with_length(plan_file plan, size_t len) {
    plan.len = len;
    return plan;
}

void append(plan_file *plan, uint8_t type, uint8_t first, uint8_t second) {
    uint8_t *record = plan->bytes + plan->len;
    memset(record, 0, RECORD);
    record[0] = type, record[1] = first, record[2] = second;
    plan->len += RECORD;
}

plan_file idle_plan(unsigned activities) {
    plan_file plan = {"idle activities", 0, {0}};
    for (unsigned i = 1; i <= activities; i++) append(&plan, 1, (uint8_t)i, 1);
    append(&plan, 2, 1, 0);
    return plan;
}

plan_file full_plan(void) {
    plan_file plan = renamed(idle_plan(64), "a full file");
    for (unsigned i = 1; i < 64; i++)
        for (unsigned j = i + 1; j <= 64 && plan.len < YAFFLEDESK_MOST_PLAN_BYTES; j++) append(&plan, 4, (uint8_t)i, (uint8_t)j);
    return plan;
}

// ---- Lent memory ----

enum { PATTERN = 0xA5 };
uint32_t lent_numbers[LENT_NUMBERS];
uint8_t lent_bytes[LENT_BYTES];

static void fresh_memory(void) {
    memset(lent_numbers, PATTERN, sizeof lent_numbers);
    memset(lent_bytes, PATTERN, sizeof lent_bytes);
}

// Nothing was written but for the first so many numbers and bytes.
static void check_unchanged(const char *name, const char *what, size_t numbers, size_t bytes) {
    const uint8_t *as_bytes = (const uint8_t *)lent_numbers;
    size_t wrong = 0;
    for (size_t i = numbers * sizeof *lent_numbers; i < sizeof lent_numbers; i++) wrong += as_bytes[i] != PATTERN;
    for (size_t i = bytes; i < sizeof lent_bytes; i++) wrong += lent_bytes[i] != PATTERN;
    check(wrong == 0, "%s, %s: %zu bytes of lent memory were changed", name, what, wrong);
}

// ---- Operations ----

uint64_t needs(const plan_file *plan, size_t lent) {
    fresh_memory();
    uint64_t answer = yaffledesk_needs(plan->bytes, plan->len, lent_numbers, lent);
    check_unchanged(plan->name, "Needs", YAFFLEDESK_NUMBER(answer) ? 0 : YAFFLEDESK_REST(answer), 0);
    return answer;
}

uint64_t starts(const plan_file *plan, size_t lent) {
    fresh_memory();
    uint64_t answer = yaffledesk_starts(plan->bytes, plan->len, lent_numbers, lent);
    check_unchanged(plan->name, "Starts", YAFFLEDESK_NUMBER(answer) ? 0 : YAFFLEDESK_REST(answer), 0);
    return answer;
}

uint64_t flow(const plan_file *plan, uint64_t kind, size_t lent) {
    fresh_memory();
    uint64_t answer = yaffledesk_flow(plan->bytes, plan->len, kind, lent_bytes, lent);
    check_unchanged(plan->name, "Flow", 0, YAFFLEDESK_NUMBER(answer) ? 0 : RECORD * YAFFLEDESK_REST(answer));
    return answer;
}

uint64_t sheet(const plan_file *plan, uint64_t kind, uint64_t page, size_t lent) {
    fresh_memory();
    uint64_t answer = yaffledesk_sheet(plan->bytes, plan->len, kind, page, lent_bytes, lent);
    check_unchanged(plan->name, "Sheet", 0, YAFFLEDESK_NUMBER(answer) ? 0 : PAGE);
    return answer;
}

uint64_t overload(const plan_file *plan, size_t lent) {
    fresh_memory();
    uint64_t answer = yaffledesk_overload(plan->bytes, plan->len, lent_bytes, lent);
    check_unchanged(plan->name, "Overload", 0, YAFFLEDESK_NUMBER(answer) ? 0 : RECORD * YAFFLEDESK_REST(answer));
    return answer;
}

uint64_t trim(const plan_file *plan, size_t lent) {
    fresh_memory();
    uint64_t answer = yaffledesk_trim(plan->bytes, plan->len, lent_bytes, lent);
    check_unchanged(plan->name, "Trim", 0, YAFFLEDESK_NUMBER(answer) ? 0 : RECORD * YAFFLEDESK_REST(answer));
    return answer;
}

uint64_t crew(const plan_file *plan, const uint32_t *from, const uint32_t *worked) {
    size_t m = 0;
    while (plan->bytes[m * RECORD] == 1) m++; // activities stand first
    return yaffledesk_crew_check(plan->bytes, plan->len, from, m, worked, m);
}

// ---- Whole plans ----

void check_refused(plan_file plan, unsigned number, uint64_t rest) {
    static const uint32_t list[YAFFLEDESK_MOST_ACTIVITIES];
    check_answer(plan.name, "Verdict", yaffledesk_verdict(plan.bytes, plan.len), number, rest);
    check(yaffledesk_set(plan.bytes, plan.len) == 0, "%s: a set is shown", plan.name);
    for (size_t lent = 0; lent <= YAFFLEDESK_MOST_ACTIVITIES; lent += YAFFLEDESK_MOST_ACTIVITIES) {
        check_answer(plan.name, "Needs", needs(&plan, lent), number, rest);
        check_answer(plan.name, "Starts", starts(&plan, lent), number, rest);
        check_answer(plan.name, "Overload", overload(&plan, lent), number, rest);
        check_answer(plan.name, "Flow of kind 0", flow(&plan, 0, lent), number, rest);
        check_answer(plan.name, "Flow of kind 1", flow(&plan, 1, lent ? YAFFLEDESK_FLOW_BYTES(64) : 0), number, rest);
        check_answer(plan.name, "Sheet of kind 0, page 0", sheet(&plan, 0, 0, lent), number, rest);
        check_answer(plan.name, "Sheet of kind 1, page 1", sheet(&plan, 1, 1, lent ? PAGE : 0), number, rest);
        check_answer(plan.name, "Trim", trim(&plan, lent ? plan.len + 1 : 0), number, rest);
        check_answer(plan.name, "Crew check", yaffledesk_crew_check(plan.bytes, plan.len, list, lent, list, lent), number, rest);
    }
}

void check_faults(plan_file plan, const byte_fault *faults, size_t count) {
    for (const byte_fault *fault = faults; fault < faults + count; fault++)
        check_refused(renamed(with_byte(plan, fault->at, fault->value), fault->name), fault->number, fault->place);
}

void check_accepted(const plan_file *plan, unsigned m) {
    check_answer(plan->name, "Verdict", yaffledesk_verdict(plan->bytes, plan->len), YAFFLEDESK_DONE, m + 256 * 1);
    check(yaffledesk_set(plan->bytes, plan->len) == 0, "%s: a set is shown", plan->name);
    check_answer(plan->name, "Overload", overload(plan, 24), YAFFLEDESK_DONE, 0);
}

void check_overloaded(const plan_file *plan, size_t m, uint8_t kind, uint8_t need, uint8_t size, uint8_t set) {
    const uint8_t record[24] = {32, kind, size, 0, need, 0, 0, 0, set};
    uint64_t rest = kind + ((uint64_t)need << 8) + ((uint64_t)size << 40);
    check_answer(plan->name, "Verdict", yaffledesk_verdict(plan->bytes, plan->len), YAFFLEDESK_OVERLOADED, rest);
    check(yaffledesk_set(plan->bytes, plan->len) == set, "%s: set %" PRIx64, plan->name, yaffledesk_set(plan->bytes, plan->len));
    check_answer(plan->name, "Overload", overload(plan, 24), YAFFLEDESK_DONE, 1);
    for (size_t i = 0; i < sizeof record; i++)
        check(lent_bytes[i] == record[i], "%s: byte %zu of the overload record is %u, not %u", plan->name, i, lent_bytes[i], record[i]);
    check(yaffledesk_need(lent_bytes) == need && yaffledesk_members(lent_bytes) == set, "%s: the header reads the record otherwise", plan->name);
    check_answer(plan->name, "Flow", flow(plan, 1, YAFFLEDESK_FLOW_BYTES(m)), YAFFLEDESK_OVERLOADED, rest);
    check_answer(plan->name, "Flow, short", flow(plan, 1, YAFFLEDESK_FLOW_BYTES(m) - 1), YAFFLEDESK_TOO_SHORT, YAFFLEDESK_FLOW_BYTES(m));
    check_answer(plan->name, "Flow of kind 0", flow(plan, 0, 0), YAFFLEDESK_NO_SUCH_KIND, plan->bytes[m * RECORD + 1]);
    check_answer(plan->name, "Trim", trim(plan, plan->len), YAFFLEDESK_OVERLOADED, rest);
    check_answer(plan->name, "Trim, short", trim(plan, plan->len - 1), YAFFLEDESK_TOO_SHORT, plan->len);
    for (uint64_t page = 0; page <= 2; page++) {
        check_answer(plan->name, "Sheet", sheet(plan, 1, page, PAGE), YAFFLEDESK_OVERLOADED, rest);
        check_answer(plan->name, "Sheet, short", sheet(plan, 1, page, PAGE - 1), YAFFLEDESK_TOO_SHORT, PAGE);
        check_answer(plan->name, "Sheet of kind 0", sheet(plan, 0, page, 0), YAFFLEDESK_NO_SUCH_KIND, plan->bytes[m * RECORD + 1]);
    }
}

void check_numbers(const plan_file *plan, uint32_t need, const uint32_t *expected, size_t count) {
    check_answer(plan->name, "Needs", needs(plan, 1), YAFFLEDESK_DONE, 1);
    check(lent_numbers[0] == need, "%s: need %" PRIu32 ", not %" PRIu32, plan->name, lent_numbers[0], need);
    check_answer(plan->name, "Starts", starts(plan, count), YAFFLEDESK_DONE, count);
    for (size_t i = 0; i < count; i++)
        check(lent_numbers[i] == expected[i], "%s: start %zu is %" PRIu32 ", not %" PRIu32, plan->name, i + 1, lent_numbers[i], expected[i]);
    check_answer(plan->name, "Needs, short", needs(plan, 0), YAFFLEDESK_TOO_SHORT, 1);
    check_answer(plan->name, "Starts, short", starts(plan, count - 1), YAFFLEDESK_TOO_SHORT, count);
    check_answer(plan->name, "Overload, short", overload(plan, 23), YAFFLEDESK_TOO_SHORT, 24);
}

void check_flow(const plan_file *plan, size_t lent, const uint8_t expected[][5], size_t count) {
    check_answer(plan->name, "Flow", flow(plan, 1, lent), YAFFLEDESK_DONE, count);
    for (size_t n = 0; n < count; n++) {
        const uint8_t *r = expected[n], *got = lent_bytes + RECORD * n;
        const uint8_t record[24] = {33, r[0], r[1], r[2], r[3], 0, 0, 0, r[4]};
        check(memcmp(got, record, sizeof record) == 0, "%s: flow record %zu is type %u, %u %u %u %" PRIu32 " %u, or a spare byte is not zero",
              plan->name, n, got[0], got[1], got[2], got[3], yaffledesk_units(got), got[8]);
    }
}

void check_page(const plan_file *plan, size_t lent, const char *const *lines, size_t count) {
    char line[42];
    check_answer(plan->name, "Sheet", sheet(plan, 1, 1, lent), YAFFLEDESK_DONE, 1);
    for (size_t n = 0; n < 60; n++) {
        snprintf(line, sizeof line, "%-40s\n", n < count ? lines[n] : "");
        check(memcmp(lent_bytes + 41 * n, line, 41) == 0, "%s: line %zu of the sheet is %.40s", plan->name, n + 1, (const char *)lent_bytes + 41 * n);
    }
}
