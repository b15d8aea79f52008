// How fast the proved solver finds the need of an order, next to the maximum flow codes of LEMON and Boost. README.md says what is measured.
//   flow              all families, checked and timed: a table and the verdict; exit status 1 on a mismatch or a ratio that is not reached
//   flow --lemon-flow the same, with LEMON's run() (which also finds the flow) in place of runMinCut() (only the value and a cut)
//   flow --ours F K   only the proved function, once on each of the first K plans of the family F (0 to 13): for valgrind
//   flow --plan F S   only checks the plan with the seed S of the family F: for a seed that a mismatch has printed
#include "families.h"
#include "network.h"
#include "turns.h"

#include <cstdio>
#include <cstdlib>
#include <cstring>
#include <string>

#include <boost/graph/adjacency_list.hpp>
#include <boost/graph/push_relabel_max_flow.hpp>

// The elements from m on are passed over. A quote asks that their rows of `flow` are 0, and takes back what stands in the others: with m = N it asks nothing.
extern "C" uint32_t yaffledesk_quote(const uint64_t arcs[N], size_t m, const uint32_t demand[N], uint32_t flow[N * N], uint64_t *set);

constexpr double WANTED = 4;

// ---- The plans ----

struct Plan {
    uint64_t seed;
    Rows rows; // closed
    Demand demand;
};

Plan plan_of(const Family &family, uint64_t seed) {
    Random random{seed};
    Plan plan{seed, arcs_of(family, random), {}};
    close_order(plan.rows);
    plan.demand = demand_of(family.demands, random);
    return plan;
}

// The plans of a family have seeds of their own, so that one of them can be made again without the others.
std::vector<Plan> plans_of(int family, int count) {
    Random seeds{SEED + uint64_t(family)};
    std::vector<Plan> plans;
    for (int k = 0; k < count; k++) plans.push_back(plan_of(FAMILIES[family], seeds.next()));
    return plans;
}

// ---- The contestants: each gets the closed rows and the demands, and gives the need ----

// What the proved function shows beside the need: the others are asked for the need only.
struct Answer {
    uint32_t flow[N * N];
    uint64_t set;
} answer;

uint32_t ours(const Plan &plan) { return yaffledesk_quote(plan.rows.data(), N, plan.demand.data(), answer.flow, &answer.set); }

template <bool FLOW> uint32_t by_lemon(const Plan &plan) { return lemon_need<FLOW>(plan.rows.data(), plan.demand.data()); }

// As the documentation of push_relabel_max_flow has it: each arc with its reverse, of capacity 0.
uint32_t boost_need(const Plan &plan) {
    using namespace boost;
    using Traits = adjacency_list_traits<vecS, vecS, directedS>;
    using Graph = adjacency_list<vecS, vecS, directedS, no_property,
                                 property<edge_capacity_t, int, property<edge_residual_capacity_t, int, property<edge_reverse_t, Traits::edge_descriptor>>>>;
    const int right = right_of(N), sink = sink_of(N);
    Graph graph(sink + 1);
    const auto capacity = get(edge_capacity, graph);
    const auto reverse = get(edge_reverse, graph);
    const auto arc = [&](int from, int to, uint32_t units) {
        const auto there = add_edge(from, to, graph).first, back = add_edge(to, from, graph).first;
        capacity[there] = int(units);
        capacity[back] = 0;
        reverse[there] = back;
        reverse[back] = there;
    };
    const uint32_t all = sum(plan.demand);
    for (int i = 0; i < N; i++) {
        arc(SOURCE, LEFT + i, plan.demand[i]);
        for (uint64_t row = plan.rows[i]; row != 0; row &= row - 1) arc(LEFT + i, right + __builtin_ctzll(row), all);
        arc(right + i, sink, plan.demand[i]);
    }
    return all - uint32_t(push_relabel_max_flow(graph, SOURCE, sink));
}

// ---- The checks ----

// What is wrong with the three needs and the proved function's answer, or nothing.
std::string fault(const Plan &plan, uint32_t need, uint32_t lemon, uint32_t boost) {
    if (need != lemon || need != boost)
        return "needs differ: ours " + std::to_string(need) + ", LEMON " + std::to_string(lemon) + ", Boost " + std::to_string(boost);
    uint64_t weight = 0, total = 0;
    for (int i = 0; i < N; i++) {
        if (!(answer.set >> i & 1)) continue;
        if (plan.demand[i] == 0) return "the set has an element without a demand";
        if (answer.set & plan.rows[i]) return "the set has two related elements";
        weight += plan.demand[i];
    }
    if (weight != need) return "the set does not weigh the need";
    for (int i = 0; i < N; i++) {
        uint64_t gives = 0, takes = 0;
        for (int j = 0; j < N; j++) {
            if (answer.flow[i * N + j] != 0 && !(plan.rows[i] >> j & 1)) return "a handover between unrelated elements";
            gives += answer.flow[i * N + j];
            takes += answer.flow[j * N + i];
        }
        if (gives > plan.demand[i] || takes > plan.demand[i]) return "a handover of more than the demand";
        total += gives;
    }
    if (need + total != sum(plan.demand)) return "need and handover are not the sum of the demands";
    return "";
}

void check(int family, const Plan &plan, uint32_t need, uint32_t lemon, uint32_t boost) {
    const std::string what = fault(plan, need, lemon, boost);
    if (what.empty()) return;
    std::printf("MISMATCH in family %d (%s, demands 0..%u), plan seed %llu: %s\n", family, FAMILIES[family].name, FAMILIES[family].demands - 1,
                (unsigned long long)plan.seed, what.c_str());
    std::exit(1);
}

// ---- The clock ----

using Need = uint32_t (*)(const Plan &);
constexpr int OURS = 0, LEMON = 1, BOOST = 2, CONTESTANTS = 3;

struct Measured {
    std::vector<double> time[CONTESTANTS], ratio; // for each plan: the least of its repetitions, in microseconds; the faster library's over ours
    double spread;                                // of the median ratios of the ten tenths of the plans, the largest over the least
};

// The contestants take turns plan by plan, so that what disturbs the machine for a while disturbs all of them. The repetitions of one follow each
// other: were they to alternate, LEMON would pay for the memory that Boost has just freed (glibc merges the many small pieces at the next large
// request), which doubles its time in sparse orders.
Measured measure(int family, const std::vector<Plan> &plans, const Need contestants[CONTESTANTS]) {
    Measured m;
    for (const Plan &plan : plans) {
        double least[CONTESTANTS];
        uint32_t need[CONTESTANTS][REPETITIONS];
        std::memset(&answer, 0xff, sizeof answer); // An answer that is not written is not to pass as the one before.
        for (int c = 0; c < CONTESTANTS; c++) {
            least[c] = least_time([&](int r) { need[c][r] = contestants[c](plan); });
            m.time[c].push_back(least[c]);
        }
        m.ratio.push_back(std::min(least[LEMON], least[BOOST]) / least[OURS]);
        for (int r = 0; r < REPETITIONS; r++) check(family, plan, need[OURS][r], need[LEMON][r], need[BOOST][r]);
    }
    m.spread = spread_of(m.ratio);
    return m;
}

int bench(bool lemon_flow) {
    const Need contestants[CONTESTANTS] = {ours, lemon_flow ? by_lemon<true> : by_lemon<false>, boost_need};
    std::printf("seed %llu, %d plans to a family, least of %d repetitions, medians in microseconds; LEMON: StaticDigraph, %s\n\n",
                (unsigned long long)SEED, PLANS, REPETITIONS, lemon_flow ? "run()" : "runMinCut()");
    std::printf("| order            | demands  |   ours |  LEMON |  Boost | ratio, median | ratio of medians | spread |\n");
    std::printf("|------------------|----------|-------:|-------:|-------:|--------------:|-----------------:|-------:|\n");
    double least = 1e9;
    for (int f = 0; f < COUNT; f++) {
        const auto plans = plans_of(f, PLANS);
        int tries;
        const Measured m = calmest([&] { return measure(f, plans, contestants); }, tries);
        const double a = median(m.time[OURS]), b = median(m.time[LEMON]), c = median(m.time[BOOST]);
        const double each = median(m.ratio), all = std::min(b, c) / a;
        least = std::min({least, each, all});
        std::printf("| %-16s | 0..%-5u | %6.2f | %6.2f | %6.2f | %13.2f | %16.2f | %5.2f%s |\n", FAMILIES[f].name, FAMILIES[f].demands - 1, a, b, c, each,
                    all, m.spread, tries > 1 ? "*" : " ");
        std::fflush(stdout);
    }
    std::printf("\nspread: of the median ratios of the tenths of the plans, largest over least; *: measured again for being above %.2f\n", SILLY);
    std::printf("every plan: the needs of all repetitions equal, set and handover checked\n");
    std::printf("%d families, least ratio %.2f, wanted %g: %s\n", COUNT, least, WANTED, least >= WANTED ? "met" : "not met");
    return least >= WANTED ? 0 : 1;
}

int main(int argc, char **argv) {
    keep_memory();
    const std::string mode = argc > 1 ? argv[1] : "";
    if (argc == 1 || (argc == 2 && mode == "--lemon-flow")) return bench(argc == 2);
    const int family = argc == 4 ? std::atoi(argv[2]) : -1;
    if (family >= 0 && family < COUNT && mode == "--ours") {
        for (const Plan &plan : plans_of(family, std::atoi(argv[3]))) ours(plan);
        return 0;
    }
    if (family >= 0 && family < COUNT && mode == "--plan") {
        const Plan plan = plan_of(FAMILIES[family], std::strtoull(argv[3], nullptr, 10));
        const uint32_t need = ours(plan);
        check(family, plan, need, by_lemon<true>(plan), boost_need(plan));
        std::printf("need %u, checked\n", need);
        return 0;
    }
    std::fprintf(stderr, "usage: flow [--lemon-flow | --ours FAMILY PLANS | --plan FAMILY SEED]\n");
    return 2;
}
