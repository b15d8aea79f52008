// yaffledesk trim: a plan without the extra arcs that it can do without.
#include "commands.h"
#include "one.h"

#include <string.h>

// A trimmed plan has its records in the given order, and no record is there twice: what is not the next one of it went.
static void say_gone(struct text *out, const struct plan *plan, const struct text *left) {
    text_print(out, "kept %zu of %zu records\n", left->len / YAFFLEDESK_RECORD_BYTES, plan_records(plan));
    const char *next = left->bytes, *end = left->bytes + left->len;
    for (size_t place = 0; place < plan_records(plan); place++) {
        const uint8_t *record = plan_record(plan, place);
        if (next < end && memcmp(record, next, YAFFLEDESK_RECORD_BYTES) == 0)
            next += YAFFLEDESK_RECORD_BYTES;
        else
            text_print(out, "extra %u %u went\n", arc_from(record), arc_to(record));
    }
}

static int say(const struct plan *plan, const struct text *left) {
    struct text gone = {0};
    say_gone(&gone, plan, left);
    int status = output_write(NULL, &gone, TEXT);
    text_free(&gone);
    return status;
}

int trim_run(const struct options *options) {
    static struct plan plan;
    static uint8_t trimmed[YAFFLEDESK_MOST_PLAN_BYTES];
    if (!one_read(&plan, options->names[0])) return STATUS_TROUBLE;
    uint64_t answer = yaffledesk_trim(plan.bytes, plan.len, trimmed, sizeof trimmed);
    if (YAFFLEDESK_NUMBER(answer) != YAFFLEDESK_DONE) return one_refused(options->names[0], answer, &plan, NULL);
    struct text left = {0};
    text_add(&left, trimmed, YAFFLEDESK_RECORD_BYTES * YAFFLEDESK_REST(answer));
    // What went is said where the plan goes elsewhere: standard output is for the plan otherwise.
    int is_said = !output_is_standard(options->output), status = output_write(options->output, &left, BINARY);
    if (status == STATUS_DONE && is_said) status = say(&plan, &left);
    text_free(&left);
    return status;
}
