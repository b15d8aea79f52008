// Plan files of the families: up to 64 activities, a crew record with 8 kinds, and the arcs of an order.
#ifndef PLANFILE_H
#define PLANFILE_H
#include "families.h"

#include <algorithm>
#include <cstring>
#include <utility>
#include <vector>

constexpr int KINDS = 8, RECORD = 24, RECORDS = 2048, MOST_ARCS = RECORDS - N - 1;

// With demands up to 65,535 the need would be far beyond 65,535, which is the most that a file can have available: every plan would be refused for
// its first kind. All 64 demands of 1,023 are 65,472, so that every need can be met, and all 8 kinds are weighed.
constexpr uint32_t DEMANDS = 1024;
inline uint32_t demands(const Family &family) { return std::min(family.demands, DEMANDS); }

using Arc = std::pair<int, int>;
using Crew = std::array<uint32_t, KINDS>;

struct PlanFile {
    uint64_t seed;
    int count; // of activities
    Rows rows; // the plan order, closed
    std::array<Demand, KINDS> demand;
    Crew need, available;
    std::vector<uint8_t> bytes;
};

template <class T> void shuffle(std::vector<T> &a, Random &random) {
    for (size_t i = a.size(); i > 1; i--) std::swap(a[i - 1], a[random.below(uint32_t(i))]);
}

inline std::vector<Arc> pairs_of(const Rows &rows) {
    std::vector<Arc> arcs;
    for (int i = 0; i < N; i++)
        for (uint64_t row = rows[i]; row != 0; row &= row - 1) arcs.emplace_back(i, __builtin_ctzll(row));
    return arcs;
}

// The arcs that a file states: those that were drawn, and of the pairs that follow from them a share that is drawn for each file, from none to all, as
// far as there is room. The order is the same whatever the share. Full: all pairs of the order, and then each of them again, for the other type, as far as
// the 2,048 records of the longest file go. No file can state more of its order: within a type no pair may stand twice.
inline std::vector<Arc> stated_arcs(const Family &family, int count, bool full, Random &random) {
    Rows drawn = arcs_of(family, random);
    for (int i = 0; i < N; i++) drawn[i] = i < count ? drawn[i] & ~uint64_t(0) >> (N - count) : 0;
    Rows rest = drawn;
    close_order(rest);
    for (int i = 0; i < N; i++) rest[i] &= ~drawn[i];
    std::vector<Arc> arcs = pairs_of(drawn);
    const uint32_t share = random.below(1001);
    for (const Arc &arc : pairs_of(rest))
        if (random.below(1000) < share || full) arcs.push_back(arc);
    if (full) {
        std::vector<Arc> again = arcs;
        shuffle(again, random);
        arcs.insert(arcs.end(), again.begin(), again.end());
    }
    if (arcs.size() > MOST_ARCS) arcs.resize(MOST_ARCS); // those that were drawn stand first, and never come near this
    shuffle(arcs, random);
    return arcs;
}

inline void put_half(uint8_t *at, uint32_t value) { at[0] = uint8_t(value), at[1] = uint8_t(value >> 8); }

// The crew record, in its place: once the needs are known, and again where they change.
inline void put_crew(PlanFile &file) {
    uint8_t *record = &file.bytes[file.count * RECORD];
    record[0] = 2, record[1] = KINDS;
    for (int k = 0; k < KINDS; k++) put_half(record + 4 + 2 * k, file.available[k]);
}

inline void put_activities(PlanFile &file, Random &random) {
    for (int i = 0; i < file.count; i++) {
        uint8_t *record = &file.bytes[i * RECORD];
        record[0] = 1, record[1] = uint8_t(i + 1);
        put_half(record + 2, 1 + random.below(65535));
        for (int k = 0; k < KINDS; k++) put_half(record + 4 + 2 * k, file.demand[k][i]);
    }
}

// About half of the arcs are job arcs, which stand before the extra ones. A pair that stands twice is one of each type. Two arcs of three have a wait, of up to 999 periods: the verdict reads none.
inline void put_arcs(PlanFile &file, std::vector<Arc> arcs, Random &random) {
    Rows job{}, extra{};
    const auto first_extra = std::partition(arcs.begin(), arcs.end(), [&](const Arc &arc) {
        const uint64_t to = uint64_t(1) << arc.second;
        const bool in_job = random.below(2) == 0 ? !(job[arc.first] & to) : (extra[arc.first] & to) != 0;
        (in_job ? job : extra)[arc.first] |= to;
        return in_job;
    });
    uint8_t *record = &file.bytes[(file.count + 1) * RECORD];
    for (auto arc = arcs.begin(); arc != arcs.end(); ++arc, record += RECORD) {
        const uint32_t place = uint32_t(arc - arcs.begin());
        record[0] = arc < first_extra ? 3 : 4, record[1] = uint8_t(arc->first + 1), record[2] = uint8_t(arc->second + 1);
        put_half(record + 4, place % 3 == 0 ? 0 : 1 + 37 * place % 999);
    }
}

// Three plans of four are accepted: each kind has its need available, or up to a sixteenth more. In the fourth, one kind has less than its need.
inline Crew available_for(const Crew &need, Random &random) {
    Crew available;
    for (int k = 0; k < KINDS; k++) available[k] = std::min(need[k] + random.below(need[k] / 16 + 1), 65535u);
    const uint32_t k = random.below(KINDS);
    if (random.below(4) == 0 && need[k] > 0) available[k] = random.below(need[k]);
    return available;
}

// The order is that of flow.cpp's plan with the same seed, or where there are fewer activities its first ones. need_of finds the need of a kind: it gets the
// closed rows, the demands and the number of activities.
template <class NeedOf> PlanFile file_of(const Family &family, uint64_t seed, int count, bool full, NeedOf need_of) {
    Random random{seed};
    PlanFile file{seed, count, {}, {}, {}, {}, {}};
    const std::vector<Arc> arcs = stated_arcs(family, count, full, random);
    for (const Arc &arc : arcs) file.rows[arc.first] |= uint64_t(1) << arc.second;
    close_order(file.rows);
    file.bytes.resize((count + 1 + arcs.size()) * RECORD);
    for (int k = 0; k < KINDS; k++) {
        file.demand[k] = demand_of(demands(family), random);
        std::fill(file.demand[k].begin() + count, file.demand[k].end(), 0);
        file.need[k] = need_of(file.rows.data(), file.demand[k].data(), count);
    }
    file.available = available_for(file.need, random);
    put_activities(file, random);
    put_crew(file);
    put_arcs(file, arcs, random);
    return file;
}

// A damaged copy: one byte of any value, an arc turned around, the end cut off, an activity's duration 0, or an arc copied over another.
inline std::vector<uint8_t> damaged(const PlanFile &file, Random &random) {
    std::vector<uint8_t> bytes = file.bytes;
    const uint32_t length = uint32_t(bytes.size()), arcs = length / RECORD - file.count - 1;
    const uint32_t how = random.below(5);
    const auto any_arc = [&] { return &bytes[(file.count + 1 + random.below(arcs)) * RECORD]; };
    if (how == 0) bytes[random.below(length)] = uint8_t(random.below(256));
    if (how == 1 && arcs > 0) {
        uint8_t *record = any_arc();
        std::swap(record[1], record[2]);
    }
    if (how == 2) bytes.resize(random.below(2) == 0 ? random.below(length) : random.below(length / RECORD) * RECORD);
    if (how == 3) put_half(&bytes[random.below(uint32_t(file.count)) * RECORD + 2], 0);
    if (how == 4 && arcs > 0) {
        const uint8_t *again = any_arc();
        std::memmove(any_arc(), again, RECORD); // over itself, perhaps
    }
    return bytes;
}
#endif
