// plans FOLDER COUNT: writes that many plan files, 00000000.plan and on, always the same ones: 64 activities with durations and demands of 8 kinds, and 100
// arcs, job arcs and extra ones. In three plans of four each kind has its need available; in the fourth, one kind has less. list.py makes a price list of them.
#include "yaffledesk.h"

#include <stdio.h>
#include <stdlib.h>

enum { ACTIVITIES = 64, KINDS = 8, ARCS = 100, DEMANDS = 1024, RECORD = YAFFLEDESK_RECORD_BYTES, RECORDS = ACTIVITIES + 1 + ARCS };

static uint64_t state = 20261117;

static uint32_t below(uint32_t n) {
    state = state * 6364136223846793005u + 1442695040888963407u;
    return (uint32_t)((state >> 32) * n >> 32);
}

static void put_half(uint8_t *at, uint32_t value) { at[0] = (uint8_t)value, at[1] = (uint8_t)(value >> 8); }

static void put_activities(uint8_t *record) {
    for (int i = 1; i <= ACTIVITIES; i++, record += RECORD) {
        record[0] = 1, record[1] = (uint8_t)i;
        put_half(record + 2, 1 + below(100));
        for (int k = 0; k < KINDS; k++) put_half(record + 4 + 2 * k, below(DEMANDS));
    }
}

// Each pair once, from the lower number to the higher: so no arc is repeated, and there is no circle.
static void put_arcs(uint8_t *record) {
    uint64_t drawn[ACTIVITIES] = {0};
    for (int arc = 0; arc < ARCS;) {
        uint32_t from = below(ACTIVITIES - 1), to = from + 1 + below(ACTIVITIES - 1 - from);
        if (drawn[from] >> to & 1) continue;
        drawn[from] |= (uint64_t)1 << to;
        record[0] = arc < ARCS / 2 ? 3 : 4, record[1] = (uint8_t)(from + 1), record[2] = (uint8_t)(to + 1);
        put_half(record + 4, below(3) == 0 ? 1 + below(20) : 0);
        record += RECORD, arc++;
    }
}

static void put_crew(uint8_t *plan) {
    uint8_t *record = plan + RECORD * ACTIVITIES;
    uint32_t needs[KINDS], short_of = below(4 * KINDS); // a kind in one plan of four
    record[0] = 2, record[1] = KINDS;
    if (yaffledesk_needs(plan, RECORD * RECORDS, needs, KINDS) != 256 * KINDS) abort();
    for (uint32_t k = 0; k < KINDS; k++) put_half(record + 4 + 2 * k, k == short_of ? needs[k] - 1 : needs[k]);
}

int main(int argc, char **argv) {
    char name[4096];
    for (long i = 0, count = argc == 3 ? atol(argv[2]) : 0; i < count; i++) {
        uint8_t plan[RECORD * RECORDS] = {0};
        put_activities(plan);
        put_arcs(plan + RECORD * (ACTIVITIES + 1));
        put_crew(plan);
        snprintf(name, sizeof name, "%s/%08ld.plan", argv[1], i);
        FILE *file = fopen(name, "wb");
        if (file == NULL || fwrite(plan, 1, sizeof plan, file) != sizeof plan || fclose(file) != 0) {
            perror(name);
            return 2;
        }
    }
    return argc == 3 ? 0 : 2;
}
