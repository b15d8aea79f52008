// The bipartite network of an order, and LEMON's maximum flow in it: all demands less the flow is the need.
#ifndef NETWORK_H
#define NETWORK_H
#include "families.h"

#include <utility>
#include <vector>

#define LEMON_ONLY_TEMPLATES // LEMON's headers alone: its constants are then known to the compiler, and nothing is to be linked.
#include <lemon/preflow.h>
#include <lemon/static_graph.h>

// The network's nodes for n elements: the source, the left copies, the right copies, the sink.
constexpr int SOURCE = 0, LEFT = 1;
inline int right_of(int n) { return LEFT + n; }
inline int sink_of(int n) { return LEFT + 2 * n; }

// StaticDigraph was the fastest of LEMON's graphs in every family (ListDigraph and SmartDigraph with reserved space were tried), and the default
// elevator the faster one. Its arcs have to come sorted by their first node. "Infinite" is the sum of the demands.
using Graph = lemon::StaticDigraph;
using Capacities = Graph::ArcMap<int>;

inline int network(const uint64_t *rows, Graph &graph, int n = N) {
    size_t size = 2 * n;
    for (int i = 0; i < n; i++) size += __builtin_popcountll(rows[i]);
    std::vector<std::pair<int, int>> arcs;
    arcs.reserve(size);
    for (int i = 0; i < n; i++) arcs.emplace_back(SOURCE, LEFT + i);
    for (int i = 0; i < n; i++)
        for (uint64_t row = rows[i]; row != 0; row &= row - 1) arcs.emplace_back(LEFT + i, right_of(n) + __builtin_ctzll(row));
    for (int j = 0; j < n; j++) arcs.emplace_back(right_of(n) + j, sink_of(n));
    graph.build(sink_of(n) + 1, arcs.begin(), arcs.end());
    return int(size);
}

template <bool FLOW> uint32_t lemon_need(const uint64_t *rows, const uint32_t *demand, int n = N) {
    Graph graph;
    const int size = network(rows, graph, n);
    uint32_t all = 0;
    for (int i = 0; i < n; i++) all += demand[i];
    Capacities capacity(graph, int(all));
    for (int i = 0; i < n; i++) {
        capacity[Graph::arc(i)] = int(demand[i]);
        capacity[Graph::arc(size - n + i)] = int(demand[i]);
    }
    lemon::Preflow<Graph, Capacities> preflow(graph, capacity, Graph::node(SOURCE), Graph::node(sink_of(n)));
    FLOW ? preflow.run() : preflow.runMinCut();
    return all - uint32_t(preflow.flowValue());
}
#endif
