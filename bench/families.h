// The families of random orders that flow.cpp, verdict.cpp and trim.cpp are measured on: always the same ones, with every compiler.
#ifndef FAMILIES_H
#define FAMILIES_H
#include <array>
#include <cstdint>
#include <numeric>
#include <utility>

constexpr int N = 64;
constexpr uint64_t SEED = 20241115;
using Rows = std::array<uint64_t, N>;
using Demand = std::array<uint32_t, N>;

// SplitMix64, and not a generator of the library: the same plans with every compiler.
struct Random {
    uint64_t state;
    uint64_t next() {
        uint64_t z = (state += 0x9e3779b97f4a7c15u);
        z = (z ^ (z >> 30)) * 0xbf58476d1ce4e5b9u;
        z = (z ^ (z >> 27)) * 0x94d049bb133111ebu;
        return z ^ (z >> 31);
    }
    uint32_t below(uint32_t n) { return uint32_t(((next() >> 32) * n) >> 32); }
    std::array<int, N> permutation() {
        std::array<int, N> p;
        std::iota(p.begin(), p.end(), 0);
        for (int i = N - 1; i > 0; i--) std::swap(p[i], p[below(i + 1)]);
        return p;
    }
};

enum Kind { ACYCLIC, LAYERS, PLANE };
struct Family {
    const char *name;
    Kind kind;
    uint32_t permille;
    uint32_t demands; // each demand is below this
};
const Family FAMILIES[] = {
    {"acyclic 0.5 %", ACYCLIC, 5, 65536}, {"acyclic 2 %", ACYCLIC, 20, 65536},   {"acyclic 5 %", ACYCLIC, 50, 65536},
    {"acyclic 15 %", ACYCLIC, 150, 65536}, {"acyclic 50 %", ACYCLIC, 500, 65536}, {"four layers 20 %", LAYERS, 200, 65536},
    {"two dimensions", PLANE, 0, 65536},   {"acyclic 0.5 %", ACYCLIC, 5, 4},      {"acyclic 2 %", ACYCLIC, 20, 4},
    {"acyclic 5 %", ACYCLIC, 50, 4},       {"acyclic 15 %", ACYCLIC, 150, 4},     {"acyclic 50 %", ACYCLIC, 500, 4},
    {"four layers 20 %", LAYERS, 200, 4},  {"two dimensions", PLANE, 0, 4},
};
constexpr int COUNT = sizeof FAMILIES / sizeof *FAMILIES;

// The arcs of an order as they are drawn, not yet closed.
inline Rows arcs_of(const Family &family, Random &random) {
    Rows rows{};
    const auto p = random.permutation(), q = random.permutation();
    for (int i = 0; i < N; i++)
        for (int j = 0; j < N; j++) {
            bool arc = false;
            switch (family.kind) {
            case ACYCLIC: arc = p[i] < p[j] && random.below(1000) < family.permille; break;
            case LAYERS: arc = p[i] / 16 + 1 == p[j] / 16 && random.below(1000) < family.permille; break;
            case PLANE: arc = p[i] < p[j] && q[i] < q[j]; break;
            }
            rows[i] |= uint64_t(arc) << j;
        }
    return rows;
}

inline void close_order(Rows &rows) {
    for (int k = 0; k < N; k++)
        for (int i = 0; i < N; i++)
            if (rows[i] >> k & 1) rows[i] |= rows[k];
}

inline uint32_t sum(const Demand &demand) { return std::accumulate(demand.begin(), demand.end(), 0u); }

inline Demand demand_of(uint32_t below, Random &random) {
    Demand demand;
    for (uint32_t &d : demand) d = random.below(below);
    return demand;
}
#endif
