// A plan file's bytes, and the fields of its records (document 01, "The plan file"). What the plan is worth is the library's matter; whoever shows a
// plan, or says what is wrong with one, looks at its fields by these.
#ifndef PLAN_H
#define PLAN_H

#include "which.h"
#include "yaffledesk.h"

enum {
    ACTIVITY = 1, // byte 1: its number; 2-3: duration; 4-19: eight demands
    CREW = 2,     // byte 1: the count of kinds; 4-19: eight availabilities
    JOB_ARC = 3,  // byte 1: from; 2: to; 4-5: wait
    EXTRA_ARC = 4 // the same fields
};

// One byte more than the longest plan, so that a file that is too long is seen to be.
struct plan {
    uint8_t bytes[YAFFLEDESK_MOST_PLAN_BYTES + 1];
    size_t len;
    struct which which; // the file that it was read from
};

// Reads a file, or standard input where it is named "-". NULL, or in words why it cannot be read. Of a file that is too long only as much as shows that is
// read.
const char *plan_read(struct plan *plan, const char *name);

// The same of a file that was found in a folder and not named by anyone: what is no regular file there, a pipe say, is not waited for.
const char *plan_read_found(struct plan *plan, const char *name);

// How many whole records there are, and each by its place, from 0.
static inline size_t plan_records(const struct plan *plan) { return plan->len / YAFFLEDESK_RECORD_BYTES; }
static inline const uint8_t *plan_record(const struct plan *plan, size_t place) { return plan->bytes + YAFFLEDESK_RECORD_BYTES * place; }

static inline unsigned record_type(const uint8_t *record) { return record[0]; }

// The number of an activity; the count of kinds of a crew; where an arc comes from, and leads to.
static inline unsigned record_number(const uint8_t *record) { return record[1]; }
static inline unsigned crew_kinds(const uint8_t *record) { return record[1]; }
static inline unsigned arc_from(const uint8_t *record) { return record[1]; }
static inline unsigned arc_to(const uint8_t *record) { return record[2]; }

static inline unsigned activity_duration(const uint8_t *record) { return (unsigned)yaffledesk_number_at(record + 2, 2); }
static inline unsigned arc_wait(const uint8_t *record) { return (unsigned)yaffledesk_number_at(record + 4, 2); }

// What an activity demands of a kind, and what a crew has of it; kinds count from 1.
static inline unsigned record_of_kind(const uint8_t *record, unsigned kind) { return (unsigned)yaffledesk_number_at(record + 2 + 2 * kind, 2); }

// The place of the crew record, which is the count of activities; the count of records where there is none.
size_t plan_crew(const struct plan *plan);

// Of a readable plan: how many of a kind are available.
unsigned plan_available(const struct plan *plan, unsigned kind);

// Of a readable plan: what an activity, from 1, demands of a kind, and how long it takes.
unsigned plan_demand(const struct plan *plan, unsigned activity, unsigned kind);
unsigned plan_duration(const struct plan *plan, unsigned activity);

#endif
