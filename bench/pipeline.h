// What the pipelines in C++ of verdict.cpp and trim.cpp share: plain.c's reader and orders with the file's checks, and LEMON kept from kind to kind.
// Answers are as yaffledesk.h has them: the number with its values above it.
#ifndef PIPELINE_H
#define PIPELINE_H
#include "network.h"

#include "yaffledesk.h"
extern "C" {
#include "plain.h"
}

inline uint64_t packed(unsigned number, uint64_t rest) { return number | rest << 8; }
inline uint64_t overloaded(int kind, uint32_t need) { return packed(YAFFLEDESK_OVERLOADED, (kind + 1) | uint64_t(need) << 8); }

// The answer without the size of the set, which only the proved function gives.
inline uint64_t sizeless(uint64_t answer) { return YAFFLEDESK_NUMBER(answer) == YAFFLEDESK_OVERLOADED ? answer & ((uint64_t(1) << 48) - 1) : answer; }

// All kinds of a plan have the same order, so that LEMON's graph and memory can be kept from kind to kind. Only the capacities at the source and the
// sink change; "infinite" is more than any sum of demands.
class Kept {
    Graph graph;
    const int n, size;
    Capacities capacity;
    lemon::Preflow<Graph, Capacities> preflow;

public:
    Kept(const uint64_t *rows, size_t count)
        : n(int(count)), size(network(rows, graph, n)), capacity(graph, N * 65535), preflow(graph, capacity, Graph::node(SOURCE), Graph::node(sink_of(n))) {}
    uint32_t need(const uint32_t *demand) {
        uint32_t all = 0;
        for (int i = 0; i < n; i++) {
            capacity[Graph::arc(i)] = int(demand[i]);
            capacity[Graph::arc(size - n + i)] = int(demand[i]);
            all += demand[i];
        }
        preflow.runMinCut();
        return all - uint32_t(preflow.flowValue());
    }
};

// The lowest activity before itself, from 1, or 0.
inline int circle(const uint64_t *rows) {
    for (int i = 0; i < N; i++)
        if (rows[i] >> i & 1) return i + 1;
    return 0;
}

// Reads the file and closes its orders; the plan order is left in order. The answer of what is refused for the file alone, or 0. This and the next are always
// inlined, as they stood in verdict.cpp before trim.cpp shared them: as functions of their own they moved its times, by where the code then lay.
[[gnu::always_inline]] inline uint64_t opened(const uint8_t *bytes, size_t length, plain_plan &plan, uint64_t *order) {
    size_t place;
    if (const int cause = plain_read(bytes, length, &plan, &place)) return packed(cause, place);
    uint64_t joined[N];
    plain_order(plan.job, order);
    if (const int i = circle(order)) return packed(YAFFLEDESK_JOB_CIRCLE, i);
    for (int i = 0; i < N; i++) joined[i] = plan.job[i] | plan.extra[i];
    plain_order(joined, order);
    if (const int i = circle(order)) return packed(YAFFLEDESK_PLAN_CIRCLE, i);
    return 0;
}

// The answer 7 with the lowest kind whose need is above what is available, or 0: the kinds one after another, until the first such.
template <class Lemon> [[gnu::always_inline]] inline uint64_t first_overload(const plain_plan &plan, Lemon &lemon) {
    for (size_t k = 0; k < plan.kinds; k++) {
        const uint32_t need = lemon.need(plan.demand + N * k);
        if (need > plan.available[k]) return overloaded(int(k), need);
    }
    return 0;
}
#endif
