// What the cases stand on: counting checks, plans to be tried, lent memory that shows where it was written, and what a whole plan is expected to give.
#ifndef CHECKS_H
#define CHECKS_H

#include "yaffledesk.h"

#include <inttypes.h>
#include <stdio.h>
#include <string.h>

enum { RECORD = YAFFLEDESK_RECORD_BYTES, PAGE = YAFFLEDESK_SHEET_BYTES };
// Places in plan A: activities are records 0 to 3, the crew is record 4, the extra arcs are records 5 and 6.
enum { CREW = 4 * RECORD, ARC_1_2 = 5 * RECORD, ARC_2_4 = 6 * RECORD };

// The cases, each a file of its own.
void refusals(void);
void results(void);
void milestones(void);
void repeats(void);
void waits(void);
void added(void);
void trims(void);
void reports(void);

// Counts one check, and prints a line where it fails.
extern unsigned passed, failed;
void check(int holds, const char *format, ...);
// Every number of the header has been an answer.
void check_all_seen(void);
void check_answer(const char *name, const char *what, uint64_t got, unsigned number, uint64_t rest);

// A plan, with room for one byte and one record more than the longest.
typedef struct {
    const char *name;
    size_t len;
    uint8_t bytes[YAFFLEDESK_MOST_PLAN_BYTES + YAFFLEDESK_RECORD_BYTES + 1];
} plan_file;

// The plan examples/NAME.plan. The tests mean nothing without it, so a missing file ends them.
plan_file example(const char *name);
plan_file renamed(plan_file plan, const char *name);
plan_file with_byte(plan_file plan, size_t at, uint8_t value);
plan_file with_length(plan_file plan, size_t len);
void append(plan_file *plan, uint8_t type, uint8_t first, uint8_t second);
// A plan of so many activities of duration 1 without demands, and a crew of one kind.
plan_file idle_plan(unsigned activities);
// A file as long as can be: the idle plan of 64 activities, and 1,983 different extra arcs, from 1 to 2 onwards by from, then to. 63 to 64 is none of them.
plan_file full_plan(void);

// Lent memory: longer than any operation needs, filled with a pattern before each call, and never lent whole.
enum { LENT_NUMBERS = YAFFLEDESK_MOST_ACTIVITIES + 8, LENT_BYTES = 51480 + 64 };
extern uint32_t lent_numbers[LENT_NUMBERS];
extern uint8_t lent_bytes[LENT_BYTES];

// The operations that write, on fresh memory, each with what it may not have changed: everything where it did not answer 0.
uint64_t needs(const plan_file *plan, size_t lent);
uint64_t starts(const plan_file *plan, size_t lent);
uint64_t flow(const plan_file *plan, uint64_t kind, size_t lent);
uint64_t sheet(const plan_file *plan, uint64_t kind, uint64_t page, size_t lent);
uint64_t overload(const plan_file *plan, size_t lent);
uint64_t trim(const plan_file *plan, size_t lent);

// The crew check with lists as long as the plan has activities.
uint64_t crew(const plan_file *plan, const uint32_t *from, const uint32_t *worked);
#define LIST(...) ((const uint32_t[]){__VA_ARGS__})

// Every operation refuses the plan alike, whatever it is lent and whichever kind it is asked for.
void check_refused(plan_file plan, unsigned number, uint64_t rest);
// One byte that is changed in a plan, and what the plan is then refused with, one after another.
typedef struct {
    const char *name;
    size_t at;
    uint8_t value;
    unsigned number, place;
} byte_fault;
void check_faults(plan_file plan, const byte_fault *faults, size_t count);
void check_accepted(const plan_file *plan, unsigned m);
// An overloaded plan: the 7 of Verdict, Flow, Sheet and Trim, the set, and the overload record byte by byte.
void check_overloaded(const plan_file *plan, size_t m, uint8_t kind, uint8_t need, uint8_t size, uint8_t set);
// Needs and Starts of a plan of one kind, lent exactly what they need and one number less.
void check_numbers(const plan_file *plan, uint32_t need, const uint32_t *expected, size_t count);
// A flow of kind 1 that is the only one: each record's kind, from, to, units and added mark, as the report prints them.
void check_flow(const plan_file *plan, size_t lent, const uint8_t expected[][5], size_t count);
// Page 1 of the sheet of kind 1, which has no other: its lines without the blanks behind them, and further ones that are blank.
void check_page(const plan_file *plan, size_t lent, const char *const *lines, size_t count);

#endif
