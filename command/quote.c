#include "quote.h"

#include "refusal.h"
#include "shown.h"

enum { VERDICT_WIDTH = 10 };

#define CELL "  kind %u: need %5u of %-5u" // no more than 65,535 can be available: what is accepted has its columns in line

struct quote {
    uint64_t answer;
    unsigned kinds; // 0 where there are no needs: the file is not readable, or its order has a circle
    uint32_t needs[YAFFLEDESK_MOST_KINDS];
};

static struct quote quote_of(const struct plan *plan) {
    struct quote quote = {.answer = yaffledesk_verdict(plan->bytes, plan->len)};
    uint64_t needs = yaffledesk_needs(plan->bytes, plan->len, quote.needs, YAFFLEDESK_MOST_KINDS);
    if (YAFFLEDESK_NUMBER(needs) == YAFFLEDESK_DONE) quote.kinds = (unsigned)YAFFLEDESK_REST(needs);
    return quote;
}

static int is_accepted(const struct quote *quote) { return YAFFLEDESK_NUMBER(quote->answer) == YAFFLEDESK_DONE; }

static void say_why(struct text *out, const struct quote *quote, const struct plan *plan) {
    refusal_say(out, quote->answer, plan, NULL);
}

static void end_of_table_line(struct text *out) {
    while (out->len > 0 && out->bytes[out->len - 1] == ' ') out->len--;
    text_put(out, "\n");
}

static void table_line(struct text *out, const struct quote *quote, const struct plan *plan, const char *name, size_t width) {
    size_t characters = shown_name(out, name);
    text_fill(out, ' ', characters < width ? width - characters : 0);
    if (is_accepted(quote))
        text_print(out, "  %-*s", VERDICT_WIDTH, "accepted");
    else
        text_print(out, "  refused %-*u", VERDICT_WIDTH - 8, YAFFLEDESK_NUMBER(quote->answer));
    for (unsigned kind = 1; kind <= quote->kinds; kind++) text_print(out, CELL, kind, (unsigned)quote->needs[kind - 1], plan_available(plan, kind));
    if (!is_accepted(quote)) {
        text_put(out, "  ");
        say_why(out, quote, plan);
    }
    end_of_table_line(out);
}

static void csv_why(struct text *out, const struct quote *quote, const struct plan *plan) {
    struct text why = {0};
    say_why(&why, quote, plan);
    csv_field(out, why.bytes, why.len);
    text_free(&why);
}

// Two fields for each of eight kinds, so that every line has as many fields; those of kinds that a plan has not are empty.
static void csv_line(struct text *out, const struct quote *quote, const struct plan *plan, const char *name) {
    shown_csv(out, name);
    text_print(out, ",%s,%u,", is_accepted(quote) ? "accepted" : "refused", YAFFLEDESK_NUMBER(quote->answer));
    if (!is_accepted(quote)) csv_why(out, quote, plan);
    for (unsigned kind = 1; kind <= YAFFLEDESK_MOST_KINDS; kind++)
        if (kind <= quote->kinds)
            text_print(out, ",%u,%u", (unsigned)quote->needs[kind - 1], plan_available(plan, kind));
        else
            text_put(out, ",,");
    text_put(out, "\n");
}

// A refusal's words have no quotes, backslashes or control characters: nothing in them means something else in JSON.
static void json_line(struct text *out, const struct quote *quote, const struct plan *plan, const char *name) {
    text_put(out, "{\"plan\":");
    shown_json(out, name);
    text_print(out, ",\"accepted\":%s,\"number\":%u", is_accepted(quote) ? "true" : "false", YAFFLEDESK_NUMBER(quote->answer));
    if (!is_accepted(quote)) {
        text_put(out, ",\"refusal\":\"");
        say_why(out, quote, plan);
        text_put(out, "\"");
    }
    text_put(out, ",\"kinds\":[");
    for (unsigned kind = 1; kind <= quote->kinds; kind++)
        text_print(out, "%s{\"need\":%u,\"available\":%u}", kind > 1 ? "," : "", (unsigned)quote->needs[kind - 1], plan_available(plan, kind));
    text_put(out, "]}\n");
}

unsigned quote_plan(struct text *out, const struct plan *plan, const char *name, const struct options *options) {
    struct quote quote = quote_of(plan);
    switch (options->format) {
    case TABLE: table_line(out, &quote, plan, name, options->width); break;
    case CSV: csv_line(out, &quote, plan, name); break;
    case JSON: json_line(out, &quote, plan, name); break;
    }
    return YAFFLEDESK_NUMBER(quote.answer);
}

void quote_heading(struct text *out, const struct options *options) {
    if (options->format == TABLE) {
        text_print(out, "%-*s  %-*s  of each kind the need and what is available\n", (int)options->width, "plan", VERDICT_WIDTH, "verdict");
        return;
    }
    text_put(out, "plan,verdict,number,refusal");
    for (unsigned kind = 1; kind <= YAFFLEDESK_MOST_KINDS; kind++) text_print(out, ",need %u,available %u", kind, kind);
    text_put(out, "\n");
}
