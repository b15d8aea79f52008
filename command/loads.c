#include "loads.h"

#include <stdlib.h>

// So many more are occupied from a time on, or fewer.
struct change {
    uint64_t time;
    int64_t more;
};

static int compare_times(const void *one, const void *other) {
    uint64_t first = ((const struct change *)one)->time, second = ((const struct change *)other)->time;
    return (first > second) - (first < second);
}

// The changes at the starts and finishes of all that demand the kind, which milestones never do. How many there are.
static size_t gather_changes(struct change *changes, const struct picture *picture, unsigned kind) {
    size_t count = 0;
    for (unsigned activity = 1; activity <= picture->activities; activity++) {
        int64_t demand = plan_demand(picture->plan, activity, kind);
        if (demand == 0) continue;
        changes[count++] = (struct change){picture_start(picture, activity), demand};
        changes[count++] = (struct change){picture_finish(picture, activity), -demand};
    }
    qsort(changes, count, sizeof *changes, compare_times);
    return count;
}

void loads_of(struct load *load, const struct picture *picture, unsigned kind) {
    struct change changes[2 * MOST_ACTIVITIES];
    size_t count = gather_changes(changes, picture, kind);
    int64_t occupied = 0;
    uint64_t before = 0;
    load->count = 0;
    load->most = 0;
    for (size_t i = 0; i < count; i++) {
        occupied += changes[i].more;
        if (i + 1 < count && changes[i + 1].time == changes[i].time) continue; // or who hands over would count twice
        if ((uint64_t)occupied == before) continue;                            // as many came as went
        before = (uint64_t)occupied;
        load->steps[load->count++] = (struct load_step){changes[i].time, before};
        if (before > load->most) load->most = before;
    }
}

// Where a step ends on the paper; the last one, of nobody, has no end.
static double step_end(const struct load *load, const struct picture *picture, size_t i) {
    const struct load_step *step = &load->steps[i];
    return i + 1 < load->count ? picture_seen_to(picture, step->time, step[1].time) : PAPER_WIDTH;
}

// The most that any step has that is seen at a place.
static uint64_t most_at(const struct load *load, const struct picture *picture, double x) {
    uint64_t most = 0;
    for (size_t i = 0; i < load->count && picture_at(picture, load->steps[i].time) <= x; i++)
        if (load->steps[i].occupied > most && step_end(load, picture, i) > x) most = load->steps[i].occupied;
    return most;
}

static int compare_places(const void *one, const void *other) {
    double first = *(const double *)one, second = *(const double *)other;
    return (first > second) - (first < second);
}

// The places at which something can change: where a step begins, and where one ends that is made longer than it lasts.
static size_t gather_places(double *places, const struct load *load, const struct picture *picture) {
    size_t count = 0;
    for (size_t i = 0; i < load->count; i++) {
        places[count++] = picture_at(picture, load->steps[i].time);
        if (i + 1 < load->count) places[count++] = step_end(load, picture, i);
    }
    qsort(places, count, sizeof *places, compare_places);
    return count;
}

void loads_seen(struct seen *seen, const struct load *load, const struct picture *picture) {
    double places[MOST_SEEN];
    size_t count = gather_places(places, load, picture);
    uint64_t before = 0;
    seen->count = 0;
    for (size_t i = 0; i < count; i++) {
        uint64_t occupied = most_at(load, picture, places[i]);
        if (occupied != before) seen->steps[seen->count++] = (struct seen_step){places[i], occupied};
        before = occupied;
    }
}
