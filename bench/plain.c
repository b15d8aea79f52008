// See plain.h. No cleverness: what a C programmer would write down first, with words of bits for rows.
#include "plain.h"

#include <string.h>

static uint32_t half(const uint8_t *r) { return r[0] + 256u * r[1]; }

static int spare(const uint8_t *r, int from, int to) {
    for (int i = from; i < to; i++)
        if (r[i] != 0) return 1;
    return 0;
}

static int read_activity(const uint8_t *r, size_t place, plain_plan *p) {
    if (place >= 64 || r[1] != place + 1) return 3;
    if (half(r + 2) == 0 && spare(r, 4, 20)) return 12; // a milestone that demands something
    if (spare(r, 20, 24)) return 4;
    p->duration[place] = half(r + 2);
    for (int k = 0; k < 8; k++) p->demand[64 * k + place] = half(r + 4 + 2 * k);
    p->count = place + 1;
    return 0;
}

static int read_crew(const uint8_t *r, plain_plan *p) {
    if (r[0] != 2) return 2;
    int kinds = r[1];
    if (kinds == 0 || kinds > 8 || spare(r, 4 + 2 * kinds, 20)) return 3;
    for (int x = 64 * kinds; x < 512; x++)
        if (p->demand[x] != 0) return 3;
    if (spare(r, 2, 4) || spare(r, 20, 24)) return 4;
    p->kinds = kinds;
    for (int k = 0; k < 8; k++) p->available[k] = half(r + 4 + 2 * k);
    return 0;
}

static int read_arc(const uint8_t *r, int due, plain_plan *p) {
    if (r[0] != due) return 2;
    if (r[1] == 0 || r[1] > p->count || r[2] == 0 || r[2] > p->count || r[1] == r[2]) return 3;
    if (r[3] != 0 || spare(r, 6, 24)) return 4; // between these is the wait
    uint64_t *row = (due == 3 ? p->job : p->extra) + r[1] - 1, to = (uint64_t)1 << (r[2] - 1);
    if (*row & to) return 13; // the pair again
    *row |= to;
    return 0;
}

int plain_read(const uint8_t *s, size_t n, plain_plan *p, size_t *place) {
    memset(p, 0, sizeof *p);
    *place = 0;
    if (n == 0 || n > 49152 || n % 24 != 0) return 1;
    size_t records = n / 24, i = 0;
    int cause = 0;
    for (; i < records && s[24 * i] == 1; i++)
        if ((cause = read_activity(s + 24 * i, i, p)) != 0) {
            *place = i;
            return cause;
        }
    *place = i;
    if (i == records) return 2;
    if ((cause = read_crew(s + 24 * i, p)) != 0) return cause;
    int due = 3;
    for (i++; i < records; i++) {
        if (s[24 * i] != 3) due = 4;
        if ((cause = read_arc(s + 24 * i, due, p)) != 0) {
            *place = i;
            return cause;
        }
    }
    return 0;
}

void plain_waits(const uint8_t *s, size_t n, uint32_t waits[4096]) {
    memset(waits, 0, 4096 * sizeof *waits);
    for (const uint8_t *r = s; r < s + n; r += 24) {
        if (r[0] != 3 && r[0] != 4) continue;
        uint32_t *wait = waits + 64 * (r[2] - 1) + (r[1] - 1);
        if (*wait < half(r + 4)) *wait = half(r + 4);
    }
}

void plain_order(const uint64_t arcs[64], uint64_t rows[64]) {
    memcpy(rows, arcs, 64 * sizeof *rows);
    for (int k = 0; k < 64; k++) {
        uint64_t gain = rows[k];
        for (int i = 0; i < 64; i++)
            if (rows[i] >> k & 1) rows[i] |= gain;
    }
}

void plain_earliest(const uint64_t arcs[64], const uint32_t duration[64], const uint32_t waits[4096], uint32_t starts[64]) {
    int waiting[64] = {0}, ready[64], count = 0;
    memset(starts, 0, 64 * sizeof *starts);
    for (int i = 0; i < 64; i++)
        for (uint64_t w = arcs[i]; w != 0; w &= w - 1) waiting[__builtin_ctzll(w)]++;
    for (int i = 0; i < 64; i++)
        if (waiting[i] == 0) ready[count++] = i;
    for (int next = 0; next < count; next++) {
        int i = ready[next];
        uint32_t finish = starts[i] + duration[i];
        for (uint64_t w = arcs[i]; w != 0; w &= w - 1) {
            int j = __builtin_ctzll(w);
            uint32_t start = finish + waits[64 * j + i];
            if (starts[j] < start) starts[j] = start;
            if (--waiting[j] == 0) ready[count++] = j;
        }
    }
}

// The load of period t in the order of the paper: who is started by t - 1, and then finished no sooner than t, adds its demands, kind by kind.
static size_t exceeded(const uint32_t demand[512], const uint32_t available[8], const uint32_t *starts, const uint32_t *worked, size_t m, uint64_t t) {
    uint64_t load[8] = {0};
    for (size_t i = 0; i < m; i++)
        if (starts[i] <= t - 1 && (uint64_t)starts[i] + worked[i] >= t)
            for (size_t k = 0; k < 8; k++) load[k] += demand[64 * k + i];
    for (size_t k = 0; k < 8; k++)
        if (load[k] > available[k]) return k;
    return 8;
}

plain_checked plain_crew_check(const uint64_t arcs[64], const uint32_t waits[4096], const uint32_t demand[512], const uint32_t available[8], const uint32_t *starts, const uint32_t *worked, size_t m) {
    for (size_t i = 0; i < m; i++)
        for (size_t j = 0; j < m; j++)
            if ((arcs[i] >> j & 1) && (uint64_t)starts[i] + worked[i] + waits[64 * j + i] > starts[j]) return (plain_checked){1, i + 1, j + 1};
    uint64_t best = 0;
    for (size_t i = 0; i < m; i++) {
        uint64_t t = (uint64_t)starts[i] + 1; // the load rises only where somebody starts
        if ((best == 0 || t < best) && exceeded(demand, available, starts, worked, m, t) < 8) best = t;
    }
    if (best == 0) return (plain_checked){0, 0, 0};
    return (plain_checked){2, best, exceeded(demand, available, starts, worked, m, best) + 1};
}
