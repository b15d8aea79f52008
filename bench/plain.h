// The same work as the proved crates plan, order and schedule, written plainly in C: what the proved code is measured against.
#ifndef PLAIN_H
#define PLAIN_H
#include <stddef.h>
#include <stdint.h>

typedef struct {
    size_t count, kinds;
    uint32_t duration[64], demand[512], available[8];
    uint64_t job[64], extra[64];
} plain_plan;

typedef struct {
    int found; // 0 fits, 1 broken arc, 2 overload
    uint64_t first, second; // from and to, or period and kind
} plain_checked;

// The number of the cause, 0 where the file is readable; its place goes to *place.
int plain_read(const uint8_t *s, size_t n, plain_plan *p, size_t *place);
// The waits of a readable file: that on the arc from i to j at 64 * j + i, the longer one where a job arc and an extra arc share the pair, 0 where there is no arc.
void plain_waits(const uint8_t *s, size_t n, uint32_t waits[4096]);
void plain_order(const uint64_t arcs[64], uint64_t rows[64]);
void plain_earliest(const uint64_t arcs[64], const uint32_t duration[64], const uint32_t waits[4096], uint32_t starts[64]);
plain_checked plain_crew_check(const uint64_t arcs[64], const uint32_t waits[4096], const uint32_t demand[512], const uint32_t available[8], const uint32_t *starts, const uint32_t *worked, size_t m);
#endif
