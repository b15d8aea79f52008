// How long the proved reader, waits, orders, earliest starts and crew check take, next to plain C (plain.c, gcc -O3), in one run.
// The plan is a full file: 64 activities, a crew record and 1,983 arcs, two thirds of them with a wait; the starts are those of all 2,016 arcs, and so are the orders of extra arcs alone.
// README.md says how to run it.
#include "plain.h"

#include <stdio.h>
#include <stdlib.h>
#include <string.h>
#include <time.h>

size_t yaffledesk_bench_read(const uint8_t *s, size_t n, uint32_t duration[64], uint32_t demand[512], uint64_t job[64], uint64_t extra[64]);
void yaffledesk_bench_waits(const uint8_t *s, size_t n, uint32_t waits[4096]);
void yaffledesk_bench_orders(const uint64_t job[64], const uint64_t extra[64], uint64_t jobs[64], uint64_t plan[64]);
void yaffledesk_bench_earliest(const uint64_t arcs[64], const uint32_t duration[64], const uint32_t waits[4096], uint32_t starts[64]);
uint64_t yaffledesk_bench_crew_check(const uint64_t arcs[64], const uint32_t waits[4096], const uint32_t demand[512], const uint32_t available[8], const uint32_t *starts, size_t m, const uint32_t *worked, size_t n);

enum { RECORDS = 2048, ROUNDS = 401, BATCH = 20 };

// Aligned: by where these happen to lie, the proved reader takes 21 or 31 us.
static _Alignas(4096) uint8_t file[24 * RECORDS];
static _Alignas(4096) plain_plan plain, proved;
static _Alignas(4096) uint32_t waits[4096], plain_waiting[4096];
static uint32_t starts[64], plain_starts[64], crew[64];
static uint32_t crowd[64], shift[64]; // a crew without arcs: one more starts in each period, and each is at work for 64
static uint64_t jobs[64], both[64], plain_jobs[64], plain_both[64], joined[64], complete[64];
static const uint64_t none[64];
static uint64_t alone[64]; // extra arcs without job arcs
static volatile uint64_t sink;

static double now(void) {
    struct timespec t;
    clock_gettime(CLOCK_MONOTONIC, &t);
    return t.tv_sec * 1e6 + t.tv_nsec / 1e3;
}

// The 2,016 pairs i < j of 64 activities but for 33, half of them job arcs, in a scrambled order. Every third has no wait.
static void make_file(void) {
    uint8_t *r = file;
    for (int i = 0; i < 64; i++, r += 24) {
        r[0] = 1, r[1] = i + 1, r[2] = 1 + i % 9, r[4] = 1 + i % 3;
        for (int k = 1; k < 8; k++) r[4 + 2 * k] = (i * k) % 5;
    }
    r[0] = 2, r[1] = 8;
    for (int k = 0; k < 8; k++) r[5 + 2 * k] = 255;
    r += 24;
    static uint8_t pair[2016][2];
    int pairs = 0;
    for (int i = 1; i <= 64; i++)
        for (int j = i + 1; j <= 64; j++) pair[pairs][0] = i, pair[pairs][1] = j, pairs++;
    for (int x = pairs - 1; x > 0; x--) { // a fixed shuffle
        int y = (x * 7919) % (x + 1);
        uint8_t a = pair[x][0], b = pair[x][1];
        pair[x][0] = pair[y][0], pair[x][1] = pair[y][1], pair[y][0] = a, pair[y][1] = b;
    }
    for (int x = 0; x < RECORDS - 65; x++, r += 24) {
        int wait = x % 3 == 0 ? 0 : 1 + 37 * x % 999;
        r[0] = x < 991 ? 3 : 4, r[1] = pair[x][0], r[2] = pair[x][1], r[4] = wait % 256, r[5] = wait / 256;
    }
}

static void read_ours(void) { sink += yaffledesk_bench_read(file, sizeof file, proved.duration, proved.demand, proved.job, proved.extra); }
static void read_plain(void) {
    size_t place;
    sink += plain_read(file, sizeof file, &plain, &place);
}
static void waits_ours(void) { yaffledesk_bench_waits(file, sizeof file, waits); }
static void waits_plain(void) { plain_waits(file, sizeof file, plain_waiting); }
static void orders_ours(void) { yaffledesk_bench_orders(proved.job, proved.extra, jobs, both); }
static void orders_plain(void) {
    plain_order(plain.job, plain_jobs);
    plain_order(joined, plain_both);
}
static void alone_ours(void) { yaffledesk_bench_orders(none, alone, jobs, both); }
static void alone_plain(void) {
    plain_order(none, plain_jobs);
    plain_order(alone, plain_both);
}
static void open_ours(void) { read_ours(), orders_ours(); }
static void open_plain(void) { read_plain(), orders_plain(); }
static void earliest_ours(void) { yaffledesk_bench_earliest(complete, proved.duration, waits, starts); }
static void earliest_plain(void) { plain_earliest(complete, plain.duration, plain_waiting, plain_starts); }
static void check_ours(void) { sink += yaffledesk_bench_crew_check(joined, waits, proved.demand, plain.available, crew, 64, proved.duration, 64); }
static void check_plain(void) { sink += plain_crew_check(joined, plain_waiting, plain.demand, plain.available, crew, plain.duration, 64).found; }
static void crowd_ours(void) { sink += yaffledesk_bench_crew_check(none, waits, proved.demand, plain.available, crowd, 64, shift, 64); }
static void crowd_plain(void) { sink += plain_crew_check(none, plain_waiting, plain.demand, plain.available, crowd, shift, 64).found; }

static int compare(const void *a, const void *b) {
    double x = *(const double *)a, y = *(const double *)b;
    return (x > y) - (x < y);
}

// The medians of ROUNDS interleaved batches, in microseconds a call.
static void measure(void (*ours)(void), void (*theirs)(void), double *mine, double *its) {
    static double a[ROUNDS], b[ROUNDS];
    for (int r = 0; r < ROUNDS; r++) {
        double t0 = now();
        for (int i = 0; i < BATCH; i++) ours();
        double t1 = now();
        for (int i = 0; i < BATCH; i++) theirs();
        double t2 = now();
        a[r] = (t1 - t0) / BATCH, b[r] = (t2 - t1) / BATCH;
    }
    qsort(a, ROUNDS, sizeof *a, compare);
    qsort(b, ROUNDS, sizeof *b, compare);
    *mine = a[ROUNDS / 2], *its = b[ROUNDS / 2];
}

static void same(const char *what, const void *a, const void *b, size_t n) {
    if (memcmp(a, b, n) == 0) return;
    printf("MISMATCH: %s\n", what);
    exit(1);
}

// All 2,016 pairs as extra arcs, with the activities numbered along the order, scrambled, or against it: the rows from the last to the first find
// an arc's end complete, or here and there, or never.
static int along(int i) { return i; }
static int scrambled(int i) { return (37 * i + 11) % 64; }
static int against(int i) { return 63 - i; }
static void number(int (*place)(int)) {
    memset(alone, 0, sizeof alone);
    for (int i = 0; i < 64; i++)
        for (int j = 0; j < 64; j++)
            if (place(i) < place(j)) alone[i] |= UINT64_C(1) << j;
    alone_ours(), alone_plain();
    same("order of extra arcs", both, plain_both, sizeof both);
}

int main(void) {
    make_file();
    read_plain(), waits_ours(), waits_plain();
    for (int i = 0; i < 64; i++) joined[i] = plain.job[i] | plain.extra[i], complete[i] = i < 63 ? ~UINT64_C(0) << (i + 1) : 0;
    open_ours(), orders_plain(), earliest_ours(), earliest_plain();
    same("durations", proved.duration, plain.duration, sizeof plain.duration);
    same("demands", proved.demand, plain.demand, sizeof plain.demand);
    same("job arcs", proved.job, plain.job, sizeof plain.job);
    same("extra arcs", proved.extra, plain.extra, sizeof plain.extra);
    same("waits", waits, plain_waiting, sizeof waits);
    same("job order", jobs, plain_jobs, sizeof jobs);
    same("plan order", both, plain_both, sizeof both);
    same("starts", starts, plain_starts, sizeof starts);
    plain_earliest(joined, plain.duration, plain_waiting, crew); // the file's own earliest starts, which fit: the check looks at everything
    for (int i = 0; i < 64; i++) crowd[i] = scrambled(i), shift[i] = 64;
    uint64_t found = plain_crew_check(joined, plain_waiting, plain.demand, plain.available, crew, plain.duration, 64).found;
    if (found != 0 || yaffledesk_bench_crew_check(joined, waits, proved.demand, plain.available, crew, 64, proved.duration, 64) != 0) printf("MISMATCH: crew check\n"), exit(1);
    found = plain_crew_check(none, plain_waiting, plain.demand, plain.available, crowd, shift, 64).found;
    if (found != 0 || yaffledesk_bench_crew_check(none, waits, proved.demand, plain.available, crowd, 64, shift, 64) != 0) printf("MISMATCH: crew check of a crowd\n"), exit(1);

    struct {
        const char *what;
        void (*ours)(void), (*plain)(void);
        int most; // times plain C
        int (*place)(int);
    } rows[] = {
        {"read 2,048 records", read_ours, read_plain, 2, 0},
        {"both orders, 1,983 arcs", orders_ours, orders_plain, 2, 0},
        {"open: read and both orders", open_ours, open_plain, 2, 0},
        {"waits of 2,048 records", waits_ours, waits_plain, 2, 0},
        {"earliest starts, 2,016 arcs", earliest_ours, earliest_plain, 2, 0},
        {"crew check, 64 x 8", check_ours, check_plain, 1, 0},
        {"the same without arcs, half of them at work", crowd_ours, crowd_plain, 1, 0},
        {"both orders, 2,016 extra arcs, numbered along", alone_ours, alone_plain, 2, along},
        {"the same, scrambled", alone_ours, alone_plain, 2, scrambled},
        {"the same, against", alone_ours, alone_plain, 2, against},
    };
    int missed = 0;
    printf("| what | proved, us | plain C, us | ratio |\n|---|--:|--:|--:|\n");
    for (size_t i = 0; i < sizeof rows / sizeof *rows; i++) {
        double mine, its;
        if (rows[i].place != 0) number(rows[i].place);
        measure(rows[i].ours, rows[i].plain, &mine, &its);
        printf("| %s | %.2f | %.2f | %.2f |\n", rows[i].what, mine, its, mine / its);
        missed += mine / its > rows[i].most || (i == 2 && mine > 60);
    }
    printf("wanted: at most 2 times plain C each, the crew checks at most 1 time, and opening under 60 us: %s\n", missed ? "not met" : "met");
    return missed != 0;
}
