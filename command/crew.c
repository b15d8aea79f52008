// yaffledesk crew: does a crew that works these starts and durations keep every arc, and fit what is available?
#include "commands.h"
#include "crew_text.h"
#include "one.h"

static int is_finding(unsigned number) { return number == YAFFLEDESK_BROKEN_ARC || number == YAFFLEDESK_CREW_OVERLOAD; }

// That a crew fits, or not, is a result. It does not fit: so the exit status is not 0.
static int write_finding(const struct options *options, uint64_t answer, const struct plan *plan,
                         const struct asked *asked) {
    struct text out = {0};
    unsigned number = YAFFLEDESK_NUMBER(answer);
    if (number == YAFFLEDESK_DONE)
        text_put(&out, "fits");
    else {
        text_print(&out, "does not fit (%u): ", number);
        refusal_say(&out, answer, plan, asked);
    }
    text_put(&out, "\n");
    int status = output_write(options->output, &out, TEXT);
    text_free(&out);
    return status == STATUS_DONE && number != YAFFLEDESK_DONE ? STATUS_REFUSED : status;
}

// 10 is the fault of the crew's text, and of a line of it where the counts are the same; every other is the plan's.
static int refused(const char *name, uint64_t answer, const struct plan *plan, const struct crew_text *text) {
    const struct asked asked = {.crew = &text->crew};
    if (YAFFLEDESK_NUMBER(answer) != YAFFLEDESK_BAD_LISTS) return one_refused(name, answer, plan, &asked);
    unsigned activity = refusal_misfit(plan, &text->crew);
    return one_refused_at(text->name, activity > 0 ? text->lines[activity - 1] : 0, answer, plan, &asked);
}

int crew_run(const struct options *options) {
    static struct plan plan;
    struct crew_text text;
    if (one_spoils(options)) return STATUS_TROUBLE;
    if (!one_read(&plan, options->names[0]) || !crew_text_read(&text, options->names[1])) return STATUS_TROUBLE;
    const struct crew *crew = &text.crew;
    const struct asked asked = {.crew = crew};
    uint64_t answer =
        yaffledesk_crew_check(plan.bytes, plan.len, crew->starts, crew->count, crew->durations, crew->count);
    unsigned number = YAFFLEDESK_NUMBER(answer);
    if (number != YAFFLEDESK_DONE && !is_finding(number)) return refused(options->names[0], answer, &plan, &text);
    return write_finding(options, answer, &plan, &asked);
}
