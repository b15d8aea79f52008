#include "arcs.h"

enum { MOST = YAFFLEDESK_MOST_ACTIVITIES };

static void read_arcs(struct arcs *arcs, const struct plan *plan) {
    arcs->count = 0;
    for (size_t place = plan_crew(plan) + 1; place < plan_records(plan); place++) {
        const uint8_t *record = plan_record(plan, place);
        bool is_extra = record_type(record) == EXTRA_ARC;
        arcs->arcs[arcs->count++] = (struct arc){arc_from(record), arc_to(record), arc_wait(record), is_extra, false};
    }
}

// What must be waited at least from the finish of one activity to the start of another, by whichever way: the waits of its arcs, in whatever
// durations the activities between are worked. None where no way leads there.
typedef int32_t ways[MOST][MOST];
enum { NO_WAY = -1 };

static void find_ways(ways waits, const struct arcs *arcs) {
    for (unsigned from = 0; from < MOST; from++)
        for (unsigned to = 0; to < MOST; to++) waits[from][to] = NO_WAY;
    for (size_t i = 0; i < arcs->count; i++) {
        int32_t *wait = &waits[arcs->arcs[i].from - 1][arcs->arcs[i].to - 1];
        if (*wait < (int32_t)arcs->arcs[i].wait) *wait = (int32_t)arcs->arcs[i].wait;
    }
    for (unsigned third = 0; third < MOST; third++)
        for (unsigned from = 0; from < MOST; from++)
            for (unsigned to = 0; to < MOST; to++) {
                if (waits[from][third] == NO_WAY || waits[third][to] == NO_WAY) continue;
                int32_t through = waits[from][third] + waits[third][to];
                if (waits[from][to] < through) waits[from][to] = through;
            }
}

static bool leads_through_a_third(ways waits, const struct arc *arc) {
    for (unsigned third = 0; third < MOST; third++) {
        int32_t before = waits[arc->from - 1][third], behind = waits[third][arc->to - 1];
        if (before != NO_WAY && behind != NO_WAY && before + behind >= (int32_t)arc->wait) return true;
    }
    return false;
}

void arcs_of(struct arcs *arcs, const struct plan *plan) {
    ways waits;
    read_arcs(arcs, plan);
    find_ways(waits, arcs);
    for (size_t i = 0; i < arcs->count; i++) arcs->arcs[i].follows = leads_through_a_third(waits, &arcs->arcs[i]);
}

size_t arcs_count(const struct arcs *arcs, bool follows) {
    size_t count = 0;
    for (size_t i = 0; i < arcs->count; i++) count += arcs->arcs[i].follows == follows;
    return count;
}

unsigned arcs_next_wait(const struct arcs *arcs, unsigned activity, bool is_extra, unsigned wait) {
    unsigned next = 0;
    for (size_t i = 0; i < arcs->count; i++) {
        const struct arc *arc = &arcs->arcs[i];
        if (arc->from != activity || arc->is_extra != is_extra || arc->wait <= wait) continue;
        if (next == 0 || arc->wait < next) next = arc->wait;
    }
    return next;
}
