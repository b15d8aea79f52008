// The commands on one plan: an operation of the library each, and its result as text or bytes.
#include "one.h"

#include "commands.h"
#include "draw.h"
#include "shown.h"

#include <string.h>

int one_read(struct plan *plan, const char *name) {
    const char *why = plan_read(plan, name);
    if (why != NULL) complain(name, "cannot be read: %s", why);
    return why == NULL;
}

int one_refused_at(const char *name, size_t line, uint64_t answer, const struct plan *plan, const struct asked *asked) {
    struct text why = {0};
    refusal_say(&why, answer, plan, asked);
    complain_at(name, line, "refused %u: %.*s", YAFFLEDESK_NUMBER(answer), (int)why.len, why.bytes);
    text_free(&why);
    return STATUS_REFUSED;
}

int one_refused(const char *name, uint64_t answer, const struct plan *plan, const struct asked *asked) {
    return one_refused_at(name, 0, answer, plan, asked);
}

int one_spoils(const struct options *options) {
    size_t at = 0;
    while (at < options->count && !output_is_input(options->output, options->names[at])) at++;
    return at < options->count;
}

int one_run(const struct options *options, maker *make, enum content content) {
    static struct plan plan;
    struct text out = {0};
    struct asked asked = {.kind = options->kind, .page = options->page};
    if (one_spoils(options) || !one_read(&plan, options->names[0])) return STATUS_TROUBLE;
    uint64_t answer = make(&out, &plan, options, &asked);
    int status = YAFFLEDESK_NUMBER(answer) != YAFFLEDESK_DONE ? one_refused(options->names[0], answer, &plan, &asked)
                                                             : output_write(options->output, &out, content);
    text_free(&out);
    return status;
}

// A refused plan has a report too, of one line with its number; here that is a refusal like any other.
static uint64_t make_report(struct text *out, const struct plan *plan, const struct options *options, struct asked *asked) {
    static uint8_t report[YAFFLEDESK_REPORT_BYTES];
    (void)options, (void)asked;
    uint64_t answer = yaffledesk_verdict(plan->bytes, plan->len);
    if (YAFFLEDESK_NUMBER(answer) != YAFFLEDESK_DONE) return answer;
    answer = yaffledesk_report(plan->bytes, plan->len, report, sizeof report);
    if (YAFFLEDESK_NUMBER(answer) == YAFFLEDESK_DONE) text_add(out, report, YAFFLEDESK_REST(answer));
    return answer;
}

// The lines have the words of the report.
static uint64_t make_starts(struct text *out, const struct plan *plan, const struct options *options, struct asked *asked) {
    uint32_t starts[YAFFLEDESK_STARTS_NUMBERS(YAFFLEDESK_MOST_ACTIVITIES)];
    (void)options, (void)asked;
    uint64_t answer = yaffledesk_starts(plan->bytes, plan->len, starts, YAFFLEDESK_STARTS_NUMBERS(YAFFLEDESK_MOST_ACTIVITIES));
    if (YAFFLEDESK_NUMBER(answer) != YAFFLEDESK_DONE) return answer;
    size_t end = YAFFLEDESK_REST(answer) - 1;
    for (size_t i = 0; i < end; i++) text_print(out, "start %zu %lu\n", i + 1, (unsigned long)starts[i]);
    text_print(out, "end %lu\n", (unsigned long)starts[end]);
    return answer;
}

static void print_flow(struct text *out, const uint8_t *records, size_t count) {
    for (const uint8_t *record = records; record < records + YAFFLEDESK_RECORD_BYTES * count; record += YAFFLEDESK_RECORD_BYTES)
        text_print(out, "flow %u %u %u %lu %u\n", record[YAFFLEDESK_AT_KIND], record[YAFFLEDESK_AT_FROM], record[YAFFLEDESK_AT_TO],
                   (unsigned long)yaffledesk_units(record), record[YAFFLEDESK_AT_ADDED]);
}

static uint64_t one_flow(struct text *out, const struct plan *plan, const struct options *options, struct asked *asked) {
    static uint8_t records[YAFFLEDESK_FLOW_BYTES(YAFFLEDESK_MOST_ACTIVITIES)];
    uint64_t answer = yaffledesk_flow(plan->bytes, plan->len, asked->kind, records, sizeof records);
    if (YAFFLEDESK_NUMBER(answer) != YAFFLEDESK_DONE) return answer;
    if (options->binary)
        text_add(out, records, YAFFLEDESK_RECORD_BYTES * YAFFLEDESK_REST(answer));
    else
        print_flow(out, records, YAFFLEDESK_REST(answer));
    return answer;
}

// All pages of a kind, or the one that is asked for. There is always a page 1, whose answer says how many there are.
static uint64_t one_sheet(struct text *out, const struct plan *plan, const struct options *options, struct asked *asked) {
    uint8_t page[YAFFLEDESK_SHEET_BYTES];
    uint64_t answer;
    if (!options->has_page) asked->page = 1;
    do {
        answer = yaffledesk_sheet(plan->bytes, plan->len, asked->kind, asked->page, page, sizeof page);
        if (YAFFLEDESK_NUMBER(answer) != YAFFLEDESK_DONE) return answer;
        text_add(out, page, sizeof page);
    } while (!options->has_page && asked->page++ < YAFFLEDESK_REST(answer));
    return answer;
}

// The kind that is asked for, or kind after kind: so many as Needs writes numbers.
static uint64_t each_kind(struct text *out, const struct plan *plan, const struct options *options,
                          struct asked *asked, maker *one) {
    uint32_t needs[YAFFLEDESK_MOST_KINDS];
    if (options->has_kind) return one(out, plan, options, asked);
    uint64_t answer = yaffledesk_needs(plan->bytes, plan->len, needs, YAFFLEDESK_MOST_KINDS), kinds = YAFFLEDESK_REST(answer);
    if (YAFFLEDESK_NUMBER(answer) != YAFFLEDESK_DONE) return answer;
    for (asked->kind = 1; asked->kind <= kinds; asked->kind++) {
        answer = one(out, plan, options, asked);
        if (YAFFLEDESK_NUMBER(answer) != YAFFLEDESK_DONE) return answer;
    }
    return answer;
}

static uint64_t make_flow(struct text *out, const struct plan *plan, const struct options *options, struct asked *asked) {
    return each_kind(out, plan, options, asked, one_flow);
}

static uint64_t make_sheet(struct text *out, const struct plan *plan, const struct options *options, struct asked *asked) {
    return each_kind(out, plan, options, asked, one_sheet);
}

static uint64_t make_overload(struct text *out, const struct plan *plan, const struct options *options, struct asked *asked) {
    uint8_t record[YAFFLEDESK_OVERLOAD_BYTES];
    (void)asked;
    uint64_t answer = yaffledesk_overload(plan->bytes, plan->len, record, sizeof record);
    if (YAFFLEDESK_NUMBER(answer) != YAFFLEDESK_DONE) return answer;
    if (options->binary)
        text_add(out, record, YAFFLEDESK_RECORD_BYTES * YAFFLEDESK_REST(answer));
    else if (YAFFLEDESK_REST(answer) == 0)
        text_put(out, "none\n");
    else {
        text_print(out, "overload %u %lu", record[YAFFLEDESK_AT_KIND], (unsigned long)yaffledesk_need(record));
        for (unsigned i = 1; i <= YAFFLEDESK_MOST_ACTIVITIES; i++)
            if (yaffledesk_has(yaffledesk_members(record), i)) text_print(out, " %u", i);
        text_put(out, "\n");
    }
    return answer;
}

// On the wall a plan's name is enough, without its folders'.
static const char *title_of(const char *name) {
    const char *slash = strrchr(name, '/');
    if (strcmp(name, "-") == 0) return "standard input";
    return slash != NULL ? slash + 1 : name;
}

static uint64_t make_draw(struct text *out, const struct plan *plan, const struct options *options, struct asked *asked) {
    (void)asked;
    return draw_plan(out, plan, title_of(options->names[0]));
}

static enum content records_or_lines(const struct options *options) { return options->binary ? BINARY : TEXT; }

int report_run(const struct options *options) { return one_run(options, make_report, TEXT); }
int starts_run(const struct options *options) { return one_run(options, make_starts, TEXT); }
int flow_run(const struct options *options) { return one_run(options, make_flow, records_or_lines(options)); }
int overload_run(const struct options *options) { return one_run(options, make_overload, records_or_lines(options)); }
int sheet_run(const struct options *options) { return one_run(options, make_sheet, TEXT); }
int draw_run(const struct options *options) { return one_run(options, make_draw, TEXT); }
