/* Yaffledesk for C and C++: the planner's operations, and its report, on the bytes of a plan file.
 *
 * Link libyaffledesk.a. `make` proves it and writes it to target/staticlib; where `make install` has put it,
 * `pkg-config --cflags --libs yaffledesk` says how.
 *
 * Every operation takes the plan as it stands in the file: records of 24 bytes, no header. It answers one
 * number of 64 bits. The low 8 bits are the answer's number: 0 where the operation was done, else one of the
 * numbers below. The bits above are its rest: what belongs to that number. YAFFLEDESK_NUMBER and
 * YAFFLEDESK_REST take them apart.
 *
 *     uint64_t answer = yaffledesk_verdict(plan, len);
 *     if (YAFFLEDESK_NUMBER(answer) == YAFFLEDESK_DONE)
 *         printf("accepted, %u activities\n", YAFFLEDESK_ACTIVITIES(answer));
 *
 * Milestones. An activity of duration 0 in the file is a milestone, and has no demands. It is never at work,
 * so that no flow and no set names it, and it passes order on as any activity does.
 *
 * Arcs. No two job arcs name the same pair, whatever their waits, and no two extra arcs do. The same pair may
 * be a job arc and an extra arc, and i to j is another pair than j to i.
 *
 * Waits. Bytes 4 and 5 of an arc record of either type are its wait, 0 to 65,535 periods, lowest byte first;
 * byte 3 and bytes 6 to 23 are spare. The arc from i to j is kept where the start of i, its duration and the
 * wait together are at most the start of j. Where a pair is a job arc and an extra arc, both waits bind: the
 * longer one decides. Earliest starts, crew check and the starts on a crew sheet go by the waits. Verdict,
 * set, needs, overload record and flow do not read them: plans that differ only in waits get the same of
 * these, byte for byte. Trim asks of an extra arc's wait only whether it is 0, and carries all waits over as
 * they are.
 *
 * Lent memory. An operation that writes is lent memory as a pointer and a length, and the length counts
 * elements: bytes where the pointer is to uint8_t, numbers where it is to uint32_t. More than needed may be
 * lent. What is written stands at the front, and the rest is left unchanged. Every answer other than 0 leaves
 * all lent memory as it was. The plan, the starts and the durations are only read. Nothing is kept after the
 * call.
 *
 * Pointers. Every pointer must be to as many elements as its length says, and must not be null, even where
 * the length is 0. Memory that is lent for writing must not overlap what is read. */
#ifndef YAFFLEDESK_H
#define YAFFLEDESK_H

#include <stddef.h>
#include <stdint.h>

#ifdef __cplusplus
extern "C" {
#endif

/* ---- Numbers of answers ---- */

enum {
    YAFFLEDESK_DONE = 0,              /* done; each operation says what its rest is */

    /* The file's numbers. Every operation but yaffledesk_report tests these first, in this order, and those
     * with a record's place record by record. */
    YAFFLEDESK_BAD_LENGTH = 1,        /* length 0, not a multiple of 24, or over 49,152; rest 0 */
    YAFFLEDESK_BAD_TYPE = 2,          /* type unknown or out of order, or crew record missing; */
                                      /* rest: the record's place, from 0; */
                                      /* where the crew record is missing, the count of records */
    YAFFLEDESK_BAD_FIELD = 3,         /* a field outside its rule; rest: the record's place */
    YAFFLEDESK_MILESTONE_DEMAND = 12, /* an activity of duration 0 with a demand, of whatever kind; */
                                      /* rest: the record's place */
    YAFFLEDESK_BAD_SPARE = 4,         /* a spare byte that is not zero; rest: the record's place */
    YAFFLEDESK_REPEATED_ARC = 13,     /* a pair that an earlier record of the same type names; */
                                      /* rest: the record's place */
    YAFFLEDESK_JOB_CIRCLE = 5,        /* a circle in the job order; rest: the lowest activity before itself there */
    YAFFLEDESK_PLAN_CIRCLE = 6,       /* a circle in the plan order only; */
                                      /* rest: the lowest activity before itself there */

    /* What is asked of the file. Each operation says which of these it gives, and in which order. */
    YAFFLEDESK_OVERLOADED = 7,        /* the need of a kind exceeds what is available; */
                                      /* YAFFLEDESK_OVERLOAD_KIND, _NEED, _SIZE */
    YAFFLEDESK_NO_SUCH_KIND = 8,      /* kind not 1 to K; rest: K */
    YAFFLEDESK_TOO_SHORT = 9,         /* lent memory too short; rest: the length needed, in elements */
    YAFFLEDESK_BAD_LISTS = 10,        /* lists not m long, a worked duration above 0 of a milestone, */
                                      /* or 0 of another activity; rest: m */
    YAFFLEDESK_NO_PAGE = 11,          /* page not 1 to the count of pages; rest: that count */

    /* The two findings of the crew check. */
    YAFFLEDESK_BROKEN_ARC = 254,      /* a broken arc: one that is not kept with its wait; */
                                      /* YAFFLEDESK_BROKEN_FROM, _TO */
    YAFFLEDESK_CREW_OVERLOAD = 255    /* more at work than available; YAFFLEDESK_CREW_KIND, _PERIOD */
};

#define YAFFLEDESK_NUMBER(answer) ((unsigned)((answer) & 255))
#define YAFFLEDESK_REST(answer) ((uint64_t)(answer) >> 8)

/* Of an answer 0 of yaffledesk_verdict: m, the count of activities, and K, the count of kinds. */
#define YAFFLEDESK_ACTIVITIES(answer) ((unsigned)(YAFFLEDESK_REST(answer) & 255))
#define YAFFLEDESK_KINDS(answer) ((unsigned)(YAFFLEDESK_REST(answer) >> 8))

/* Of an answer 7: the lowest overloaded kind, its need, and the size of the set that yaffledesk_set gives. */
#define YAFFLEDESK_OVERLOAD_KIND(answer) ((unsigned)(YAFFLEDESK_REST(answer) & 255))
#define YAFFLEDESK_OVERLOAD_NEED(answer) ((uint32_t)(YAFFLEDESK_REST(answer) >> 8 & 0xFFFFFFFF))
#define YAFFLEDESK_OVERLOAD_SIZE(answer) ((unsigned)(YAFFLEDESK_REST(answer) >> 40))

/* Of an answer 254: the ends of the arc. Of an answer 255: the kind, and the period, which can be 4,294,967,296. */
#define YAFFLEDESK_BROKEN_FROM(answer) ((unsigned)(YAFFLEDESK_REST(answer) & 255))
#define YAFFLEDESK_BROKEN_TO(answer) ((unsigned)(YAFFLEDESK_REST(answer) >> 8))
#define YAFFLEDESK_CREW_KIND(answer) ((unsigned)(YAFFLEDESK_REST(answer) & 255))
#define YAFFLEDESK_CREW_PERIOD(answer) (YAFFLEDESK_REST(answer) >> 8)

/* ---- Sizes ---- */

enum {
    YAFFLEDESK_RECORD_BYTES = 24,        /* any record: of a plan, of a flow, of an overload */
    YAFFLEDESK_OVERLOAD_BYTES = 24,      /* what yaffledesk_overload needs */
    YAFFLEDESK_SHEET_BYTES = 2460,       /* what yaffledesk_sheet needs: a page, */
                                         /* 60 lines of 40 characters and a newline */
    YAFFLEDESK_REPORT_BYTES = 553294,    /* what yaffledesk_report needs: room for the longest report */
    YAFFLEDESK_MOST_PLAN_BYTES = 49152,  /* 2,048 records */
    YAFFLEDESK_MOST_ACTIVITIES = 64,
    YAFFLEDESK_MOST_KINDS = 8
};

/* What yaffledesk_flow needs for m activities, in bytes: 24 * (m(m-1)/2 + 2m + 1), whatever the flow then
 * holds. For 64: 51,480. */
#define YAFFLEDESK_FLOW_BYTES(m) ((size_t)YAFFLEDESK_RECORD_BYTES * ((size_t)(m) * ((size_t)(m) + 3) / 2 + 1))
/* yaffledesk_trim needs as many bytes as the plan has: YAFFLEDESK_MOST_PLAN_BYTES are enough for any. */
/* What yaffledesk_needs and yaffledesk_starts need, in numbers. */
#define YAFFLEDESK_NEEDS_NUMBERS(kinds) ((size_t)(kinds))
#define YAFFLEDESK_STARTS_NUMBERS(m) ((size_t)(m) + 1)

/* ---- Operations ---- */

/* Is the plan accepted? 0: m + 256 * K. Else the file's numbers, then 7. */
uint64_t yaffledesk_verdict(const uint8_t *plan, size_t len);

/* The set that belongs to the answer 7 of the verdict: bit i - 1 for activity i. No two of its members are
 * ordered, and together they demand exactly the need. 0 where the verdict is not 7; the set of a 7 is never
 * empty. */
uint64_t yaffledesk_set(const uint8_t *plan, size_t len);

/* Writes the need of each kind from 1 to K. 0: how many numbers were written, K. Else the file's numbers,
 * then 9 (needs K numbers). Never 7. */
uint64_t yaffledesk_needs(const uint8_t *plan, size_t len, uint32_t *out, size_t out_len);

/* Writes the earliest starts of activities 1 to m and then of the end. They are the least with which every
 * arc is kept, with its wait and the file's durations; the end starts at the largest finish, a start and its
 * duration without any wait. 0: how many numbers were written, m + 1. Else the file's numbers, then 9 (needs
 * m + 1 numbers). Never 7. */
uint64_t yaffledesk_starts(const uint8_t *plan, size_t len, uint32_t *out, size_t out_len);

/* Writes the flow of a kind as flow records, ascending by from, then to. 0: how many records were written,
 * possibly none. Else the file's numbers, then 8, then 9 (needs YAFFLEDESK_FLOW_BYTES(m) bytes), then 7, for
 * the lowest overloaded kind even if the one asked for fits. */
uint64_t yaffledesk_flow(const uint8_t *plan, size_t len, uint64_t kind, uint8_t *out, size_t out_len);

/* Writes a page of the crew sheet of a kind as text: the records that yaffledesk_flow gives of it, a line
 * each ("Sheets" below says how). Pages count from 1. 0: how many pages the sheet has, 1 or more. Else the
 * file's numbers, then 8, then 9 (needs YAFFLEDESK_SHEET_BYTES bytes), then 7, as yaffledesk_flow gives it,
 * then 11. Kind and page may be any numbers of 64 bits. */
uint64_t yaffledesk_sheet(const uint8_t *plan, size_t len, uint64_t kind, uint64_t page, uint8_t *out, size_t out_len);

/* Writes an accepted plan without the extra arcs that it can do without. Its extra arcs are considered by
 * from, then to, and not in file order; each with wait 0 is taken out if the plan then left is still
 * accepted, that is, if no kind of it is overloaded. An extra arc of wait 0 whose pair is a job arc always
 * goes; one with a longer wait always stays, and counts for the order. The trimmed plan is written as a plan
 * file, its records in their order in the given one, and the bytes after it are unchanged, those up to the
 * given length too. It is accepted, and no plan that is made from it by leaving out one or more extra arcs of
 * wait 0 is. 0: how many records were written. Else the file's numbers, then 9 (needs len bytes, the given
 * file's length, however short the trimmed plan is), then 7, as yaffledesk_verdict gives it. */
uint64_t yaffledesk_trim(const uint8_t *plan, size_t len, uint8_t *out, size_t out_len);

/* Writes the overload record of an overloaded plan. 0: how many records were written, 1, or 0 where no kind
 * is overloaded. Else the file's numbers, then 9 (needs 24 bytes, whether the plan is overloaded or not).
 * Never 7. */
uint64_t yaffledesk_overload(const uint8_t *plan, size_t len, uint8_t *out, size_t out_len);

/* Does a crew that works these starts and durations keep every arc with its wait, and fit what is available?
 * Entry i - 1 of each list is activity i's; the durations are those worked, not the file's: 0 of a milestone,
 * 1 or more of every other activity. The waits are the file's and are added to the durations worked; a wait
 * occupies nobody. No sum wraps. 0: it fits, rest 0. Else the file's numbers, then 10, then 254 with the
 * first broken arc by from, then to, then 255 with the first overloaded period and its lowest overloaded
 * kind. Never 7. Nothing is written. */
uint64_t yaffledesk_crew_check(const uint8_t *plan, size_t len, const uint32_t *starts, size_t starts_len,
                               const uint32_t *durations, size_t durations_len);

/* Writes the report of a plan as text, what the report program prints ("Reports" below says how). A plan that
 * is refused has a report too, its line: so neither the file's numbers nor 7 are answers here. 0: how many
 * bytes of text were written. Else 9 (needs YAFFLEDESK_REPORT_BYTES bytes, however short the report is),
 * which is tested first, whatever the plan is. Never another number. */
uint64_t yaffledesk_report(const uint8_t *plan, size_t len, uint8_t *out, size_t out_len);

/* ---- Records ----
 *
 * Both are 24 bytes. Fields of several bytes are unsigned, lowest byte first; bytes not named are zero.
 *
 *     flow      0: 33   1: kind   2: from   3: to     4-7: units   8: added mark
 *     overload  0: 32   1: kind   2: size             4-7: need    8-15: the set, bit i - 1 for activity i
 *
 * In a flow record 0 is the start and m + 1 the end. The added mark is 1 where both ends are activities and
 * the sender is not before the receiver in the job order, directly or through other jobs, else 0. It marks a
 * handover that the job arcs do not force: a way that takes an extra arc counts as added. */

enum {
    YAFFLEDESK_OVERLOAD_RECORD = 32, /* byte 0 of an overload record */
    YAFFLEDESK_FLOW_RECORD = 33,     /* byte 0 of a flow record */

    YAFFLEDESK_AT_KIND = 1,   /* both */
    YAFFLEDESK_AT_SIZE = 2,   /* overload */
    YAFFLEDESK_AT_FROM = 2,   /* flow */
    YAFFLEDESK_AT_TO = 3,     /* flow */
    YAFFLEDESK_AT_UNITS = 4,  /* flow, four bytes */
    YAFFLEDESK_AT_NEED = 4,   /* overload, four bytes */
    YAFFLEDESK_AT_ADDED = 8,  /* flow */
    YAFFLEDESK_AT_SET = 8     /* overload, eight bytes */
};

/* The number in `count` bytes, lowest byte first. */
static inline uint64_t yaffledesk_number_at(const uint8_t *bytes, int count) {
    uint64_t number = 0;
    while (count > 0) number = number << 8 | bytes[--count];
    return number;
}

/* The units of a flow record. */
static inline uint32_t yaffledesk_units(const uint8_t *record) {
    return (uint32_t)yaffledesk_number_at(record + YAFFLEDESK_AT_UNITS, 4);
}

/* The need of an overload record. */
static inline uint32_t yaffledesk_need(const uint8_t *record) {
    return (uint32_t)yaffledesk_number_at(record + YAFFLEDESK_AT_NEED, 4);
}

/* The set of an overload record. */
static inline uint64_t yaffledesk_members(const uint8_t *record) {
    return yaffledesk_number_at(record + YAFFLEDESK_AT_SET, 8);
}

/* Whether activity i, 1 to 64, is in a set. */
static inline int yaffledesk_has(uint64_t set, unsigned i) {
    return (int)(set >> (i - 1) & 1);
}

/* ---- Sheets ----
 *
 * A page of a crew sheet is 60 lines of 40 characters and a newline, in ASCII, without a 0 at its end. The
 * first line is the word KIND, the kind and the page; each further one is a flow record, and those not used
 * are blank. Numbers are right-aligned in their columns, which count from 1; the other columns are blank.
 *
 *     first line   1-4: KIND   6: kind   8-10: page
 *     record       1-3: from   5-7: to   9-16: units   18-27: when the receiver starts
 *
 * The start of a receiver is what yaffledesk_starts gives of it, waits and all, the end included. The lines
 * ascend by that start, then by from, then by to. A page has 59 records before the next begins; a sheet
 * without any has one page. The added mark is not printed. */

/* ---- Reports ----
 *
 * A report is lines of ASCII, each a word, numbers in decimal with a single blank before each, and a newline;
 * no 0 stands at its end. Of an accepted plan they are, in this order:
 *
 *     plan      m, K
 *     need      kind, need, available                  of each kind
 *     start     activity, earliest start               of each activity
 *     end       the end's start
 *     flow      kind, from, to, units, added mark      of each record of each kind's flow, kinds ascending
 *
 * Of any other plan it is one line, by what yaffledesk_verdict answers:
 *
 *     refused   the number, and its rest: nothing (1), place (2 to 4, 12, 13), activity (5, 6), or kind, need
 *               and the set's members (7) */

#ifdef __cplusplus
}
#endif

#endif
