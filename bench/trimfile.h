// The plan files that trim.cpp is measured on: 64 activities, 8 kinds, job arcs and extra arcs, all accepted. The families differ in what trim has to do:
// how many extra arcs follow from others, how many have to be weighed, and how many of these can go.
#ifndef TRIMFILE_H
#define TRIMFILE_H
#include "planfile.h"

enum Shape { OF_FAMILY, BIPARTITE };
enum Slack { NONE, SOME, MUCH, LAST };
enum Numbering { SCRAMBLED, ALONG, AGAINST };

struct TrimFamily {
    const char *name;
    Shape shape;
    Family drawn; // the order and the demands, as verdict has them; of BIPARTITE only the demands
    int extra, job; // arcs stated, or as many as the order has pairs
    Slack slack;
    Numbering numbering;
    bool waits;   // one arc of three has one, and stays for it
    bool trimmed; // what is left of such a file after trimming: everything has to stay
    int files;
};

constexpr Family drawn(Kind kind, uint32_t permille, uint32_t demands = DEMANDS) { return {"", kind, permille, demands}; }
constexpr Family TOTAL = drawn(ACYCLIC, 1000), HALVES = drawn(LAYERS, 0);

const TrimFamily TRIM_FAMILIES[] = {
    // name, shape, drawn, extra, job, slack, numbering, waits, trimmed, files
    {"acyclic 2 %", OF_FAMILY, drawn(ACYCLIC, 20), 50, 10, NONE, SCRAMBLED, false, false, 200},
    {"acyclic 2 %", OF_FAMILY, drawn(ACYCLIC, 20), 50, 10, SOME, SCRAMBLED, true, false, 200},
    {"acyclic 2 %, 0..3", OF_FAMILY, drawn(ACYCLIC, 20, 4), 50, 10, MUCH, SCRAMBLED, false, false, 200},
    {"acyclic 15 %", OF_FAMILY, drawn(ACYCLIC, 150), 400, 50, NONE, SCRAMBLED, false, false, 20},
    {"acyclic 15 %", OF_FAMILY, drawn(ACYCLIC, 150), 400, 50, SOME, SCRAMBLED, true, false, 20},
    {"acyclic 15 %, 0..3", OF_FAMILY, drawn(ACYCLIC, 150, 4), 400, 20, MUCH, SCRAMBLED, false, false, 20},
    {"acyclic 50 %", OF_FAMILY, drawn(ACYCLIC, 500), 1900, 20, NONE, SCRAMBLED, false, false, 5},
    {"acyclic 50 %", OF_FAMILY, drawn(ACYCLIC, 500), 1900, 20, SOME, SCRAMBLED, true, false, 5},
    {"acyclic 50 %, 0..3", OF_FAMILY, drawn(ACYCLIC, 500, 4), 1900, 20, MUCH, SCRAMBLED, false, false, 5},
    {"acyclic 50 %", OF_FAMILY, drawn(ACYCLIC, 500), 1900, 10, MUCH, ALONG, false, false, 2},
    {"four layers 20 %", OF_FAMILY, drawn(LAYERS, 200), 400, 20, NONE, SCRAMBLED, false, false, 20},
    {"four layers 20 %", OF_FAMILY, drawn(LAYERS, 200), 400, 20, SOME, SCRAMBLED, false, false, 10},
    {"four layers 100 %", OF_FAMILY, drawn(LAYERS, 1000), 1900, 0, SOME, AGAINST, false, false, 3},
    {"two dimensions", OF_FAMILY, drawn(PLANE, 0), 1900, 20, NONE, SCRAMBLED, false, false, 10},
    {"two dimensions, 0..3", OF_FAMILY, drawn(PLANE, 0, 4), 1900, 20, SOME, SCRAMBLED, true, false, 10},
    {"two dimensions", OF_FAMILY, drawn(PLANE, 0), 1900, 0, MUCH, ALONG, false, false, 3},
    {"in a row by jobs", OF_FAMILY, TOTAL, 1900, 63, NONE, SCRAMBLED, false, false, 100},
    {"in a row, 40 by jobs", OF_FAMILY, TOTAL, 1900, 40, NONE, ALONG, false, false, 20},
    {"in a row, 40 by jobs", OF_FAMILY, TOTAL, 1900, 40, MUCH, SCRAMBLED, true, false, 20},
    {"in a row", OF_FAMILY, TOTAL, 1900, 0, NONE, ALONG, false, false, 20},
    {"in a row", OF_FAMILY, TOTAL, 1900, 0, NONE, AGAINST, false, false, 20},
    {"in a row", OF_FAMILY, TOTAL, 1900, 0, SOME, SCRAMBLED, false, false, 5},
    {"in a row", OF_FAMILY, TOTAL, 1900, 0, SOME, AGAINST, false, false, 3},
    {"in a row", OF_FAMILY, TOTAL, 1983, 0, MUCH, ALONG, false, false, 3},
    {"in a row", OF_FAMILY, TOTAL, 1983, 0, MUCH, AGAINST, false, false, 3},
    {"in a row, 0..3", OF_FAMILY, drawn(ACYCLIC, 1000, 4), 1983, 0, MUCH, SCRAMBLED, false, false, 5},
    {"in a row", OF_FAMILY, TOTAL, 1983, 0, LAST, ALONG, false, false, 5},
    {"two halves", BIPARTITE, HALVES, 1024, 0, NONE, SCRAMBLED, false, false, 5},
    {"two halves", BIPARTITE, HALVES, 1024, 0, SOME, SCRAMBLED, true, false, 5},
    {"two halves, 0..3", BIPARTITE, drawn(LAYERS, 0, 4), 1024, 0, SOME, SCRAMBLED, false, false, 5},
    {"two halves", BIPARTITE, HALVES, 1024, 0, MUCH, ALONG, false, false, 5},
    {"two halves", BIPARTITE, HALVES, 1024, 0, LAST, AGAINST, false, false, 5},
    {"two halves, trimmed", BIPARTITE, HALVES, 1024, 0, NONE, SCRAMBLED, false, true, 10},
    {"acyclic 50 %, trimmed", OF_FAMILY, drawn(ACYCLIC, 500), 1900, 0, NONE, SCRAMBLED, false, true, 10},
    {"in a row, trimmed", OF_FAMILY, TOTAL, 1900, 0, LAST, ALONG, false, true, 10},
};
constexpr int TRIM_COUNT = sizeof TRIM_FAMILIES / sizeof *TRIM_FAMILIES;

inline const char *name_of(Slack slack) { return slack == NONE ? "none" : slack == SOME ? "some" : slack == MUCH ? "much" : "kind 8 none"; }
inline const char *name_of(Numbering numbering) { return numbering == SCRAMBLED ? "scrambled" : numbering == ALONG ? "along" : "against"; }

// The order as it is drawn: its arcs, in the numbers that the draw gave.
inline Rows drawn_arcs(const TrimFamily &family, Random &random) {
    if (family.shape == OF_FAMILY) return arcs_of(family.drawn, random);
    Rows rows{};
    const auto p = random.permutation();
    for (int i = 0; i < N; i++)
        for (int j = 0; j < N; j++) rows[i] |= uint64_t(p[i] < N / 2 && p[j] >= N / 2) << j;
    return rows;
}

// The same order with numbers that ascend along it, or against it: who is before another has more behind it.
inline Rows numbered(const Rows &arcs, Numbering numbering) {
    if (numbering == SCRAMBLED) return arcs;
    Rows closed = arcs, rows{};
    close_order(closed);
    std::array<int, N> by, place;
    std::iota(by.begin(), by.end(), 0);
    std::stable_sort(by.begin(), by.end(), [&](int i, int j) { return __builtin_popcountll(closed[i]) > __builtin_popcountll(closed[j]); });
    for (int at = 0; at < N; at++) place[by[at]] = numbering == ALONG ? at : N - 1 - at;
    for (const Arc &arc : pairs_of(arcs)) rows[place[arc.first]] |= uint64_t(1) << place[arc.second];
    return rows;
}

struct StatedArcs {
    std::vector<Arc> job, extra;
};

// The pairs of a closed order with nobody between them: those from which all others follow.
inline Rows covers_of(const Rows &closed) {
    Rows covers = closed;
    for (const Arc &arc : pairs_of(closed)) covers[arc.first] &= ~closed[arc.second];
    return covers;
}

// So many pairs of a closed order, shuffled: those of `first`, and where there are fewer, others.
inline std::vector<Arc> some_pairs(const Rows &first, const Rows &closed, int wanted, Random &random) {
    Rows rest;
    for (int i = 0; i < N; i++) rest[i] = closed[i] & ~first[i];
    std::vector<Arc> arcs = pairs_of(first), others = pairs_of(rest);
    shuffle(arcs, random), shuffle(others, random);
    arcs.insert(arcs.end(), others.begin(), others.end());
    if (arcs.size() > size_t(wanted)) arcs.resize(wanted);
    shuffle(arcs, random);
    return arcs;
}

// Extra arcs: those that were drawn, and then pairs that follow from them. Job arcs: pairs that follow from no others; many are extra arcs too.
inline StatedArcs stated_arcs(const TrimFamily &family, Random &random) {
    const Rows arcs = numbered(drawn_arcs(family, random), family.numbering);
    Rows closed = arcs;
    close_order(closed);
    std::vector<Arc> extra = some_pairs(arcs, closed, family.extra, random);
    return {some_pairs(covers_of(closed), closed, family.job, random), extra};
}

// Job arcs before extra ones, both shuffled: trim considers them by from, then to, wherever they stand.
inline void put_arcs(PlanFile &file, const StatedArcs &stated, bool waits) {
    uint8_t *record = &file.bytes[(file.count + 1) * RECORD];
    uint32_t place = 0;
    const auto put = [&](uint8_t type, const Arc &arc) {
        record[0] = type, record[1] = uint8_t(arc.first + 1), record[2] = uint8_t(arc.second + 1);
        put_half(record + 4, waits && place % 3 == 0 ? 1 + 37 * place % 999 : 0);
        record += RECORD, place++;
    };
    for (const Arc &arc : stated.job) put(3, arc);
    for (const Arc &arc : stated.extra) put(4, arc);
}

// The order that is left where all goes that may: of job arcs, and of extra arcs with a wait.
inline Rows bare_order(const PlanFile &file) {
    Rows rows{};
    for (size_t at = (file.count + 1) * RECORD; at < file.bytes.size(); at += RECORD) {
        const uint8_t *record = &file.bytes[at];
        if (record[0] == 3 || record[4] != 0 || record[5] != 0) rows[record[1] - 1] |= uint64_t(1) << (record[2] - 1);
    }
    close_order(rows);
    return rows;
}

// None: as much as the plan needs with all its arcs. Much: as much as it needs without any that may go, so that all of them go; not more, so that no sum of
// demands shows it where something stays. Some: a quarter of the way. Last: none for kind 8 and much for the others, so that all 8 are weighed for what stays.
inline uint32_t available_for(uint32_t need, uint32_t bare, Slack slack, bool last) {
    if (slack == SOME) return need + (bare - need) / 4;
    return slack == MUCH || (slack == LAST && !last) ? bare : need;
}

template <class NeedOf> PlanFile trim_file_of(const TrimFamily &family, uint64_t seed, NeedOf need_of) {
    Random random{seed};
    PlanFile file{seed, N, {}, {}, {}, {}, {}};
    const StatedArcs stated = stated_arcs(family, random);
    for (const auto *list : {&stated.job, &stated.extra})
        for (const Arc &arc : *list) file.rows[arc.first] |= uint64_t(1) << arc.second;
    close_order(file.rows);
    file.bytes.resize((N + 1 + stated.job.size() + stated.extra.size()) * RECORD);
    put_arcs(file, stated, family.waits);
    const Rows bare = bare_order(file);
    for (int k = 0; k < KINDS; k++) {
        file.demand[k] = demand_of(family.drawn.demands, random);
        file.need[k] = need_of(file.rows.data(), file.demand[k].data(), N);
        file.available[k] = available_for(file.need[k], need_of(bare.data(), file.demand[k].data(), N), family.slack, k == KINDS - 1);
    }
    put_activities(file, random);
    put_crew(file);
    return file;
}
#endif
