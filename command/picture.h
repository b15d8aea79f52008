// What a picture of a plan shows, as the library answers it, and where on the paper it stands.
#ifndef PICTURE_H
#define PICTURE_H

#include "plan.h"
#include "scale.h"

#include <stdbool.h>

enum { MOST_ACTIVITIES = YAFFLEDESK_MOST_ACTIVITIES, MOST_KINDS = YAFFLEDESK_MOST_KINDS };

// The paper, in pixels: its width, what is kept free at its sides, and what stands right of the time axis, the words at the lines of the charts.
enum { PAPER_WIDTH = 1200, PAPER_SIDE = 28, PAPER_LABELS = 124, PAPER_RIGHT = PAPER_WIDTH - PAPER_SIDE };

struct picture {
    const struct plan *plan;
    unsigned activities, kinds;
    uint32_t starts[MOST_ACTIVITIES + 1]; // entry i - 1 is activity i's; then the end
    uint32_t needs[MOST_KINDS];
    uint64_t verdict;              // 0, or 7
    unsigned shown_kind;           // the overloaded kind whose set is shown; 0 where the plan is accepted
    uint64_t shown;                // that set
    unsigned rows[MOST_ACTIVITIES]; // the activities from the top row down: by start, then by number
    unsigned row_of[MOST_ACTIVITIES];

    double row_height, bar_height, text_size;
    double rows_top;
    double column[MOST_KINDS]; // right ends of the columns of demands
    double demands_middle;     // the middle of all of them
    struct scale time;         // the time axis
};

// Asks the library, and lays the picture out. 0, or a refusal; an overloaded plan is none.
uint64_t picture_of(struct picture *picture, const struct plan *plan);

// When an activity starts and finishes by the timetable, and when that ends.
static inline uint64_t picture_start(const struct picture *picture, unsigned activity) { return picture->starts[activity - 1]; }
static inline uint64_t picture_finish(const struct picture *picture, unsigned activity) {
    return picture_start(picture, activity) + plan_duration(picture->plan, activity);
}
static inline uint64_t picture_end(const struct picture *picture) { return picture->starts[picture->activities]; }

static inline bool picture_is_milestone(const struct picture *picture, unsigned activity) { return plan_duration(picture->plan, activity) == 0; }
static inline bool picture_is_shown(const struct picture *picture, unsigned activity) { return yaffledesk_has(picture->shown, activity); }

// The place of a time, and the middle of an activity's row.
static inline double picture_at(const struct picture *picture, uint64_t time) { return scale_place(&picture->time, time); }
static inline double picture_row(const struct picture *picture, unsigned activity) {
    return picture->rows_top + (picture->row_of[activity - 1] + 0.5) * picture->row_height;
}
static inline double picture_rows_bottom(const struct picture *picture) {
    return picture->rows_top + (picture->activities == 0 ? 1 : picture->activities) * picture->row_height;
}

// Where the bar or diamond of an activity begins and ends. A bar can be seen however short it is.
double picture_left(const struct picture *picture, unsigned activity);
double picture_right(const struct picture *picture, unsigned activity);

// Where a stretch of time that begins at its place ends on the paper: however short it is, it can be seen.
double picture_seen_to(const struct picture *picture, uint64_t from, uint64_t to);

#endif
