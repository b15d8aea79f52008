// The report: the text that the report program prints, of any bytes, accepted or not.
#include "checks.h"

enum { ROOM = YAFFLEDESK_REPORT_BYTES, PATTERN = 0x5A };
static uint8_t lent_text[ROOM + 64]; // never lent whole

// The report on fresh memory. Behind the text nothing may have changed, and nothing at all where it did not answer 0.
static uint64_t report(const plan_file *plan, size_t lent) {
    memset(lent_text, PATTERN, sizeof lent_text);
    uint64_t answer = yaffledesk_report(plan->bytes, plan->len, lent_text, lent);
    size_t wrong = 0;
    for (size_t i = YAFFLEDESK_NUMBER(answer) ? 0 : (size_t)YAFFLEDESK_REST(answer); i < sizeof lent_text; i++) wrong += lent_text[i] != PATTERN;
    check(wrong == 0, "%s, Report: %zu bytes of lent memory were changed", plan->name, wrong);
    return answer;
}

// This text, byte for byte, with exactly enough memory and with more. With less it is 9, be there room for the text itself.
static void check_text(plan_file plan, const char *text) {
    const size_t length = strlen(text), enough[] = {ROOM, ROOM + 1, ROOM + 63}, few[] = {0, length, ROOM - 1};
    for (size_t n = 0; n < sizeof enough / sizeof *enough; n++) {
        check_answer(plan.name, "Report", report(&plan, enough[n]), YAFFLEDESK_DONE, length);
        check(memcmp(lent_text, text, length) == 0, "%s: the report is another text", plan.name);
    }
    for (size_t n = 0; n < sizeof few / sizeof *few; n++)
        check_answer(plan.name, "Report, short", report(&plan, few[n]), YAFFLEDESK_TOO_SHORT, ROOM);
}

// A full file, each of its 64 activities of 60,000 periods: late starts, and no flow, since nobody is demanded.
static void check_long(void) {
    plan_file plan = full_plan();
    for (size_t i = 0; i < 64; i++) plan.bytes[i * RECORD + 2] = 60000 & 255, plan.bytes[i * RECORD + 3] = 60000 >> 8;
    uint64_t answer = report(&plan, ROOM);
    char text[64 * 32] = "plan 64 1\nneed 1 0 0\n";
    starts(&plan, 65);
    for (unsigned i = 0; i < 64; i++) sprintf(text + strlen(text), "start %u %" PRIu32 "\n", i + 1, lent_numbers[i]);
    sprintf(text + strlen(text), "end %" PRIu32 "\n", lent_numbers[64]);
    check_answer(plan.name, "Report", answer, YAFFLEDESK_DONE, strlen(text));
    check(memcmp(lent_text, text, strlen(text)) == 0, "%s: the report is another text", plan.name);
}

void reports(void) {
    const plan_file a = example("a");
    check_text(a, "plan 4 1\nneed 1 4 4\nstart 1 0\nstart 2 1\nstart 3 0\nstart 4 3\nend 4\n"
                  "flow 1 0 1 2 0\nflow 1 0 3 2 0\nflow 1 1 2 2 1\nflow 1 2 4 2 1\nflow 1 3 5 2 0\nflow 1 4 5 2 0\n");
    check_text(example("b"), "refused 7 1 6 2 3 4\n");
    check_text(example("e"), "refused 6 1\n");
    check_text(example("pasted"), "refused 13 7\n");
    check_text(renamed(with_byte(a, CREW, 9), "an unknown type"), "refused 2 4\n");
    check_text(renamed(with_byte(a, ARC_2_4 + 23, 1), "a spare byte"), "refused 4 6\n");
    check_text(renamed(with_length(a, 0), "no bytes"), "refused 1\n");
    check_text(renamed(with_length(a, 23), "23 bytes"), "refused 1\n");
    check_text(renamed(with_length(full_plan(), YAFFLEDESK_MOST_PLAN_BYTES + 1), "one byte more than the longest file"), "refused 1\n");
    check_long();
}
