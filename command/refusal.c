#include "refusal.h"

#include "scale.h"
#include "utf8.h"

#include <string.h>

#define A_PLAN_FILE "a plan has 1 to 2,048 records of 24 bytes"

enum { AFTER_NUMBERS = 20 }; // the bytes from here on are spare in records with eight demands or availabilities

static const char *const type_names[] = {"", "an activity", "the crew", "a job arc", "an extra arc"};

static int is_type(unsigned type) { return type >= ACTIVITY && type <= EXTRA_ARC; }

static int is_arc(unsigned type) { return type == JOB_ARC || type == EXTRA_ARC; }

// People count records from 1, answers and other programs from 0.
static void say_place(struct text *out, size_t place) { text_print(out, "record %zu (place %zu): ", place + 1, place); }

static void say_length(struct text *out, const struct plan *plan) {
    if (plan->len == 0)
        text_put(out, "the file is empty: " A_PLAN_FILE);
    else if (plan->len > YAFFLEDESK_MOST_PLAN_BYTES)
        text_put(out, "the file has more than 49,152 bytes: " A_PLAN_FILE);
    else
        text_print(out, "the file has %zu bytes, which is no multiple of 24: " A_PLAN_FILE, plan->len);
}

static void say_type(struct text *out, const struct plan *plan, size_t place) {
    if (place >= plan_records(plan)) {
        text_print(out, "the file ends after record %zu without a crew record", plan_records(plan));
        return;
    }
    unsigned type = record_type(plan_record(plan, place));
    say_place(out, place);
    if (!is_type(type))
        text_print(out, "type %u is unknown", type);
    else if (type == CREW)
        text_put(out, "a second crew record");
    else if (place < plan_crew(plan))
        text_print(out, "%s stands before the crew record", type_names[type]);
    else
        text_print(out, "%s stands after %s", type_names[type], type_names[record_type(plan_record(plan, place - 1))]);
}

// How many bytes a text's character has: UTF-8, and no control but tab and the ends of lines. 0 where it is none.
static size_t text_character(const uint8_t *at, size_t left) {
    char character[5] = {0}; // utf8_character reads on until a byte that does not belong to it
    uint32_t code;
    memcpy(character, at, left < 4 ? left : 4);
    size_t len = utf8_character(character, &code);
    if (code == '\t' || code == '\n' || code == '\r') return len;
    return code < ' ' || (code >= 0x7F && code < 0xA0) ? 0 : len;
}

// Whether all of a file that is read is text. Of one that is too long the last character may be cut off.
static int is_text(const struct plan *plan) {
    size_t at = 0, len;
    while (at < plan->len && (len = text_character(plan->bytes + at, plan->len - at)) > 0) at += len;
    if (at == plan->len) return at > 0;
    return plan->len > YAFFLEDESK_MOST_PLAN_BYTES && plan->len - at < 4 && plan->bytes[at] >= 0xC2;
}

static void say_text(struct text *out, const struct plan *plan) {
    if (is_text(plan)) text_put(out, "; it is text: yaffledesk-planfile pack makes a plan of a text");
}

static void say_activity_field(struct text *out, const uint8_t *record, size_t place) {
    if (place >= YAFFLEDESK_MOST_ACTIVITIES)
        text_print(out, "this would be activity %zu, and a plan has at most %u", place + 1, YAFFLEDESK_MOST_ACTIVITIES);
    else
        text_print(out, "the activity's number is %u and not %zu", record_number(record), place + 1);
}

// The first kind beyond K of which there is something in a record; 0 where there is none.
static unsigned kind_beyond(const uint8_t *record, unsigned kinds) {
    for (unsigned kind = kinds + 1; kind <= YAFFLEDESK_MOST_KINDS; kind++)
        if (record_of_kind(record, kind) > 0) return kind;
    return 0;
}

// Availabilities and demands beyond K are both found at the crew record.
static void say_crew_field(struct text *out, const struct plan *plan, size_t place) {
    const uint8_t *crew = plan_record(plan, place);
    unsigned kinds = crew_kinds(crew), beyond;
    if (kinds < 1 || kinds > YAFFLEDESK_MOST_KINDS) {
        text_print(out, "the count of kinds is %u and not 1 to %u", kinds, YAFFLEDESK_MOST_KINDS);
        return;
    }
    if ((beyond = kind_beyond(crew, kinds)) > 0) {
        text_print(out, "%u are available of kind %u, but the count of kinds is %u", record_of_kind(crew, beyond), beyond, kinds);
        return;
    }
    for (unsigned i = 1; i <= place; i++)
        if ((beyond = kind_beyond(plan_record(plan, i - 1), kinds)) > 0) {
            text_print(out, "activity %u demands %u of kind %u, but the count of kinds is %u", i, plan_demand(plan, i, beyond), beyond, kinds);
            return;
        }
    text_put(out, "a field is outside its rule");
}

static void say_arc_field(struct text *out, const uint8_t *record, size_t activities) {
    if (arc_from(record) == arc_to(record))
        text_print(out, "the arc leads from %u to itself", arc_from(record));
    else if (activities == 0)
        text_print(out, "the arc leads from %u to %u, and there are no activities", arc_from(record), arc_to(record));
    else
        text_print(out, "the arc leads from %u to %u, and the activities are 1 to %zu", arc_from(record), arc_to(record), activities);
}

static void say_field(struct text *out, const struct plan *plan, size_t place) {
    const uint8_t *record = plan_record(plan, place);
    say_place(out, place);
    if (record_type(record) == ACTIVITY)
        say_activity_field(out, record, place);
    else if (record_type(record) == CREW)
        say_crew_field(out, plan, place);
    else
        say_arc_field(out, record, plan_crew(plan));
}

static void say_milestone_demand(struct text *out, const struct plan *plan, size_t place) {
    const uint8_t *record = plan_record(plan, place);
    unsigned kind = kind_beyond(record, 0);
    say_place(out, place);
    text_print(out, "activity %u takes no time and demands %u of kind %u", record_number(record), record_of_kind(record, kind), kind);
}

static int is_spare(unsigned type, int byte) {
    if (is_arc(type)) return byte == 3 || byte >= 6;
    return byte >= AFTER_NUMBERS || (type == CREW && (byte == 2 || byte == 3));
}

static void say_spare(struct text *out, const struct plan *plan, size_t place) {
    const uint8_t *record = plan_record(plan, place);
    int byte = 0;
    while (byte < YAFFLEDESK_RECORD_BYTES - 1 && (record[byte] == 0 || !is_spare(record_type(record), byte))) byte++;
    say_place(out, place);
    text_print(out, "spare byte %d is not zero", byte);
}

static int same_arc(const uint8_t *a, const uint8_t *b) {
    return record_type(a) == record_type(b) && arc_from(a) == arc_from(b) && arc_to(a) == arc_to(b);
}

static void say_repeated(struct text *out, const struct plan *plan, size_t place) {
    const uint8_t *record = plan_record(plan, place);
    size_t earlier = 0;
    while (earlier < place && !same_arc(plan_record(plan, earlier), record)) earlier++;
    say_place(out, place);
    text_print(out, "%s from %u to %u, which record %zu (place %zu) names already", type_names[record_type(record)], arc_from(record), arc_to(record),
               earlier + 1, earlier);
}

void members_say(struct text *out, uint64_t set) {
    const char *between = "";
    for (unsigned i = 1; i <= YAFFLEDESK_MOST_ACTIVITIES; i++)
        if (yaffledesk_has(set, i)) {
            text_print(out, "%s%u", between, i);
            between = ", ";
        }
}

static void say_members(struct text *out, uint64_t answer, const struct plan *plan) {
    text_put(out, YAFFLEDESK_OVERLOAD_SIZE(answer) == 1 ? "activity " : "activities ");
    members_say(out, yaffledesk_set(plan->bytes, plan->len));
    text_put(out, YAFFLEDESK_OVERLOAD_SIZE(answer) == 1 ? " alone demands that many" : " may be at work at once");
}

static void say_overloaded(struct text *out, uint64_t answer, const struct plan *plan) {
    unsigned kind = YAFFLEDESK_OVERLOAD_KIND(answer), need = (unsigned)YAFFLEDESK_OVERLOAD_NEED(answer);
    text_print(out, "kind %u needs %u and has %u: ", kind, need, plan_available(plan, kind));
    say_members(out, answer, plan);
}

void refusal_say_grouped(struct text *out, uint64_t answer, const struct plan *plan) {
    unsigned kind = YAFFLEDESK_OVERLOAD_KIND(answer);
    text_print(out, "kind %u needs %s and has %s: ", kind, scale_grouped(YAFFLEDESK_OVERLOAD_NEED(answer)).digits,
               scale_grouped(plan_available(plan, kind)).digits);
    say_members(out, answer, plan);
}

unsigned refusal_misfit(const struct plan *plan, const struct crew *crew) {
    if (crew->count != plan_crew(plan)) return 0;
    for (unsigned i = 1; i <= crew->count; i++)
        if ((plan_duration(plan, i) == 0) != (crew->durations[i - 1] == 0)) return i;
    return 0;
}

// The lists are m long, or they are not; else a milestone is worked, or another activity is not.
static void say_lists(struct text *out, const struct plan *plan, size_t activities, const struct crew *crew) {
    unsigned i = refusal_misfit(plan, crew);
    if (crew->count != activities)
        text_print(out, "activities in the crew's file: %zu, in the plan: %zu", crew->count, activities);
    else if (i == 0) // what a later library may find
        text_put(out, "starts or durations are outside their rule");
    else if (plan_duration(plan, i) == 0)
        text_print(out, "activity %u is a milestone, which takes no time, and is worked for %u", i,
                   (unsigned)crew->durations[i - 1]);
    else
        text_print(out, "activity %u is worked for 0 periods, and only milestones take no time", i);
}

// Where a pair is a job arc and an extra arc the longer wait decides.
static unsigned longest_wait(const struct plan *plan, unsigned from, unsigned to) {
    unsigned longest = 0;
    for (size_t place = plan_crew(plan) + 1; place < plan_records(plan); place++) {
        const uint8_t *arc = plan_record(plan, place);
        if (arc_from(arc) == from && arc_to(arc) == to && arc_wait(arc) > longest) longest = arc_wait(arc);
    }
    return longest;
}

static void say_broken(struct text *out, uint64_t answer, const struct plan *plan, const struct crew *crew) {
    unsigned from = YAFFLEDESK_BROKEN_FROM(answer), to = YAFFLEDESK_BROKEN_TO(answer), wait = longest_wait(plan, from, to);
    uint64_t finish = (uint64_t)crew->starts[from - 1] + crew->durations[from - 1];
    text_print(out, "the arc from %u to %u is broken: activity %u finishes at %llu", from, to, from, (unsigned long long)finish);
    if (wait > 0) text_print(out, ", the wait is %u", wait);
    text_print(out, ", and activity %u starts at %u", to, (unsigned)crew->starts[to - 1]);
}

// Without a kind that is asked for, the page may be one that some kinds have: so the kind is named that has not.
static void say_page(struct text *out, const struct asked *asked, uint64_t pages) {
    text_print(out, "there is no page %llu: the sheet of kind %llu has ", (unsigned long long)asked->page,
               (unsigned long long)asked->kind);
    if (pages == 1)
        text_put(out, "one page");
    else
        text_print(out, "pages 1 to %llu", (unsigned long long)pages);
}

void refusal_say(struct text *out, uint64_t answer, const struct plan *plan, const struct asked *asked) {
    uint64_t rest = YAFFLEDESK_REST(answer);
    switch (YAFFLEDESK_NUMBER(answer)) {
    case YAFFLEDESK_BAD_LENGTH:
        say_length(out, plan);
        say_text(out, plan);
        break;
    case YAFFLEDESK_BAD_TYPE:
        say_type(out, plan, rest);
        say_text(out, plan);
        break;
    case YAFFLEDESK_BAD_FIELD: say_field(out, plan, rest); break;
    case YAFFLEDESK_MILESTONE_DEMAND: say_milestone_demand(out, plan, rest); break;
    case YAFFLEDESK_BAD_SPARE: say_spare(out, plan, rest); break;
    case YAFFLEDESK_REPEATED_ARC: say_repeated(out, plan, rest); break;
    case YAFFLEDESK_JOB_CIRCLE: text_print(out, "the job arcs lead activity %u back to itself", (unsigned)rest); break;
    case YAFFLEDESK_PLAN_CIRCLE: text_print(out, "job arcs and extra arcs lead activity %u back to itself", (unsigned)rest); break;
    case YAFFLEDESK_OVERLOADED: say_overloaded(out, answer, plan); break;
    case YAFFLEDESK_NO_SUCH_KIND:
        text_print(out, "there is no kind %llu: the plan's kinds are 1 to %u", (unsigned long long)asked->kind, (unsigned)rest);
        break;
    case YAFFLEDESK_TOO_SHORT: text_print(out, "the program lends too little memory: %llu are needed", (unsigned long long)rest); break;
    case YAFFLEDESK_BAD_LISTS: say_lists(out, plan, rest, asked->crew); break;
    case YAFFLEDESK_NO_PAGE: say_page(out, asked, rest); break;
    case YAFFLEDESK_BROKEN_ARC: say_broken(out, answer, plan, asked->crew); break;
    case YAFFLEDESK_CREW_OVERLOAD:
        text_print(out, "in period %llu more of kind %u are at work than the %u that are available", (unsigned long long)YAFFLEDESK_CREW_PERIOD(answer),
                   YAFFLEDESK_CREW_KIND(answer), plan_available(plan, YAFFLEDESK_CREW_KIND(answer)));
        break;
    default: text_put(out, "a number that this program does not know"); // one that a later library adds
    }
}
