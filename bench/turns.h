// How flow.cpp, verdict.cpp, sheet.cpp and trim.cpp take their times.
#ifndef TURNS_H
#define TURNS_H
#include <algorithm>
#include <chrono>
#include <malloc.h>
#include <vector>

constexpr int PLANS = 1000, REPETITIONS = 5, TRIES = 3;
constexpr double SILLY = 1.25;

// Memory that is given back to the kernel and asked for again would cost the libraries time that is not theirs.
inline void keep_memory() {
    mallopt(M_TRIM_THRESHOLD, 1 << 28);
    mallopt(M_MMAP_THRESHOLD, 1 << 28);
}

inline double median(std::vector<double> a) {
    std::nth_element(a.begin(), a.begin() + a.size() / 2, a.end());
    return a[a.size() / 2];
}

// The least time of the repetitions of one contestant on one plan, in microseconds. They follow each other: caches, branch prediction and the
// allocator are warm for every contestant alike.
template <class Run> double least_time(Run run, int repetitions = REPETITIONS) {
    double least = 1e9;
    for (int r = 0; r < repetitions; r++) {
        const auto from = std::chrono::steady_clock::now();
        run(r);
        const auto to = std::chrono::steady_clock::now();
        least = std::min(least, std::chrono::duration<double, std::micro>(to - from).count());
    }
    return least;
}

// Of the median ratios of the ten tenths of the plans, the largest over the least.
inline double spread_of(const std::vector<double> &ratio) {
    std::vector<double> tenths;
    for (auto at = ratio.begin(); at != ratio.end(); at += PLANS / 10) tenths.push_back(median({at, at + PLANS / 10}));
    return *std::max_element(tenths.begin(), tenths.end()) / *std::min_element(tenths.begin(), tenths.end());
}

// A family that was disturbed is measured again, and the calmest measurement counts. How often it was measured goes to tries.
template <class Measure> auto calmest(Measure measure, int &tries) {
    auto m = measure();
    for (tries = 1; m.spread > SILLY && tries < TRIES; tries++) {
        auto again = measure();
        if (again.spread < m.spread) m = std::move(again);
    }
    return m;
}
#endif
