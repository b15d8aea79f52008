// How long the proved solver takes for the needs of 8 kinds of one order, for plans of 8 to 64 elements in use: by one ranking for all kinds, and by a
// quote for each. Every need is compared with LEMON's. Nothing is wanted of the times; README.md says how to run it.
#include "families.h"
#include "network.h"
#include "turns.h"

#include <cstdio>
#include <cstdlib>

// The elements from m on are passed over. A quote asks that their rows of `flow` are 0, and takes back what stands in the others. Weighing asks that all
// of `flow` is 0, and leaves it so.
extern "C" {
uint32_t yaffledesk_quote(const uint64_t arcs[N], size_t m, const uint32_t demand[N], uint32_t flow[N * N], uint64_t *set);
void yaffledesk_bench_ranks(const uint64_t rows[N], size_t m, uint64_t ranks[N]);
uint32_t yaffledesk_bench_weigh(const uint64_t rows[N], const uint64_t ranks[N], size_t m, const uint32_t demand[N], uint32_t flow[N * N], uint64_t *set);
}

constexpr int KINDS = 8;
using Needs = std::array<uint32_t, KINDS>;

struct Plan {
    uint64_t seed;
    Rows rows; // closed
    std::array<Demand, KINDS> demand;
};

// A plan of m elements: the others have neither arcs nor demands.
Plan plan_of(const Family &family, uint64_t seed, int m) {
    Random random{seed};
    Plan plan{seed, arcs_of(family, random), {}};
    close_order(plan.rows);
    for (int i = 0; i < N; i++) plan.rows[i] = i < m ? plan.rows[i] & ~uint64_t(0) >> (N - m) : 0;
    for (Demand &demand : plan.demand) {
        demand = demand_of(family.demands, random);
        std::fill(demand.begin() + m, demand.end(), 0);
    }
    return plan;
}

// One ranking serves all kinds. The table of units is made at 0 once a plan, as the caller of the proved function has to.
Needs weighed(const Plan &plan, size_t m) {
    uint32_t units[N * N] = {};
    uint64_t ranks[N], set;
    Needs needs;
    yaffledesk_bench_ranks(plan.rows.data(), m, ranks);
    for (int k = 0; k < KINDS; k++) needs[k] = yaffledesk_bench_weigh(plan.rows.data(), ranks, m, plan.demand[k].data(), units, &set);
    return needs;
}

// Each kind by itself, with its handover.
Needs quoted(const Plan &plan, size_t m) {
    uint32_t units[N * N] = {};
    uint64_t set;
    Needs needs;
    for (int k = 0; k < KINDS; k++) needs[k] = yaffledesk_quote(plan.rows.data(), m, plan.demand[k].data(), units, &set);
    return needs;
}

void check(int family, const Plan &plan, const Needs &by_ranking, const Needs &by_quotes) {
    for (int k = 0; k < KINDS; k++) {
        const uint32_t need = lemon_need<false>(plan.rows.data(), plan.demand[k].data());
        if (by_ranking[k] == need && by_quotes[k] == need) continue;
        std::printf("MISMATCH in family %d (%s), plan seed %llu, kind %d: LEMON %u, by ranking %u, by quote %u\n", family, FAMILIES[family].name,
                    (unsigned long long)plan.seed, k + 1, need, by_ranking[k], by_quotes[k]);
        std::exit(1);
    }
}

int main() {
    keep_memory();
    constexpr int SOME = 200;
    std::printf("seed %llu, %d plans to a line, least of %d repetitions, medians in microseconds\n\n", (unsigned long long)SEED, SOME, REPETITIONS);
    std::printf("| order            | demands  | elements | one ranking | 8 quotes |\n|------------------|----------|---------:|------------:|---------:|\n");
    for (int f = 0; f < COUNT; f++)
        for (int m = 8; m <= N; m *= 2) {
            Random seeds{SEED + uint64_t(f)};
            std::vector<double> ranking, quotes;
            for (int x = 0; x < SOME; x++) {
                const Plan plan = plan_of(FAMILIES[f], seeds.next(), m);
                Needs by_ranking, by_quotes;
                ranking.push_back(least_time([&](int) { by_ranking = weighed(plan, m); }));
                quotes.push_back(least_time([&](int) { by_quotes = quoted(plan, m); }));
                check(f, plan, by_ranking, by_quotes);
            }
            std::printf("| %-16s | 0..%-5u | %8d | %11.2f | %8.2f |\n", FAMILIES[f].name, FAMILIES[f].demands - 1, m, median(ranking), median(quotes));
            std::fflush(stdout);
        }
    std::printf("\nevery need is LEMON's\n");
    return 0;
}
