// How fast the proved code decides on a whole plan file, next to a pipeline in C++ with LEMON's maximum flow. README.md says what is measured.
//   verdict           all families, checked and timed: a table and the verdict; exit status 1 on a mismatch or a ratio that is not reached
//   verdict --sizes   plans of 8, 16, 32 and 64 activities: our time must fall with their number; exit status 1 where it does not
//   verdict --full    the same on files that state all pairs of their order, as job arcs and as extra arcs, as far as 2,048 records go: the most that
//                     there is to read; nothing is wanted of these
//   verdict --ours F K   only the proved function, 1,000 times on each of the first K files of the family F (0 to 13): for perf
//   verdict --plan F S   only checks the file with the seed S of the family F: for a seed that a mismatch has printed
#include "pipeline.h"
#include "planfile.h"
#include "turns.h"

#include <cstdio>
#include <cstdlib>
#include <cstring>
#include <string>

// At least so many times as fast as LEMON made anew for each kind, and as LEMON kept from kind to kind.
constexpr double WANTED = 5, WANTED_KEPT = 3.5;

// The file under test, where both contestants read it: by where the bytes happen to lie, a reader takes half as long again (base.c).
alignas(4096) uint8_t bytes[RECORDS * RECORD];
size_t length;

void lay_out(const std::vector<uint8_t> &file) {
    length = file.size();
    std::memcpy(bytes, file.data(), length);
}

PlanFile file_with(int family, uint64_t seed, bool full, int count) { return file_of(FAMILIES[family], seed, count, full, lemon_need<false>); }

// The files of a family have seeds of their own, those of flow.cpp, so that one of them can be made again without the others.
std::vector<PlanFile> files_of(int family, int files_wanted, bool full, int count = N) {
    Random seeds{SEED + uint64_t(family)};
    std::vector<PlanFile> files;
    for (int k = 0; k < files_wanted; k++) files.push_back(file_with(family, seeds.next(), full, count));
    return files;
}

// ---- The contestants: each gets the file's bytes, and gives the number with its values above it, as yaffledesk.h has it ----

uint64_t ours() { return yaffledesk_verdict(bytes, length); }

uint64_t accepted(size_t activities, size_t kinds) { return packed(YAFFLEDESK_DONE, activities | kinds << 8); }

// LEMON as in flow.cpp: graph, capacities and Preflow are made anew for each kind.
class Anew {
    const uint64_t *rows;
    const int n;

public:
    Anew(const uint64_t *order, size_t count) : rows(order), n(int(count)) {}
    uint32_t need(const uint32_t *demand) { return lemon_need<false>(rows, demand, n); }
};

template <class Lemon> uint64_t theirs() {
    plain_plan plan;
    uint64_t order[N];
    if (const uint64_t refused = opened(bytes, length, plan, order)) return refused;
    Lemon lemon(order, plan.count);
    if (const uint64_t overload = first_overload(plan, lemon)) return overload;
    return accepted(plan.count, plan.kinds);
}

// ---- The checks ----

// By the needs that LEMON found when the file was made.
uint64_t expected(const PlanFile &file) {
    for (int k = 0; k < KINDS; k++)
        if (file.need[k] > file.available[k]) return overloaded(k, file.need[k]);
    return accepted(file.count, KINDS);
}

// What is wrong with the set that belongs to an overload, or nothing.
std::string set_fault(const PlanFile &file, uint64_t answer) {
    const uint64_t set = yaffledesk_set(bytes, length);
    const Demand &demand = file.demand[YAFFLEDESK_OVERLOAD_KIND(answer) - 1];
    uint32_t weight = 0;
    for (int i = 0; i < N; i++) {
        if (!(set >> i & 1)) continue;
        if (demand[i] == 0) return "the set has an activity without a demand";
        if (set & file.rows[i]) return "the set has two ordered activities";
        weight += demand[i];
    }
    if (weight != YAFFLEDESK_OVERLOAD_NEED(answer)) return "the set does not weigh the need";
    if (unsigned(__builtin_popcountll(set)) != YAFFLEDESK_OVERLOAD_SIZE(answer)) return "the set has another size";
    return "";
}

// What is wrong with the answers on the file that is laid out, or nothing.
std::string fault(const PlanFile &file, uint64_t our, uint64_t anew, uint64_t kept) {
    if (sizeless(our) != expected(file)) return "our answer is " + std::to_string(our);
    if (anew != expected(file) || kept != expected(file)) return "their answers are " + std::to_string(anew) + ", " + std::to_string(kept);
    Crew needs;
    if (yaffledesk_needs(bytes, length, needs.data(), KINDS) != packed(YAFFLEDESK_DONE, KINDS) || needs != file.need) return "the needs differ";
    return YAFFLEDESK_NUMBER(our) == YAFFLEDESK_OVERLOADED ? set_fault(file, our) : "";
}

void stop_at(const std::string &fault, int family, uint64_t seed) {
    if (fault.empty()) return;
    std::printf("MISMATCH in family %d (%s, demands 0..%u), plan seed %llu: %s\n", family, FAMILIES[family].name, demands(FAMILIES[family]) - 1,
                (unsigned long long)seed, fault.c_str());
    std::exit(1);
}

// How many files got each number.
using Tally = std::array<int, 256>;

// The pipeline is to refuse what the proved function refuses: a damaged copy of each file gets the same answer from both. Counts the numbers given.
void compare_damaged(int family, const PlanFile &file, Tally &given) {
    Random random{~file.seed};
    lay_out(damaged(file, random));
    const uint64_t our = ours(), their = theirs<Kept>();
    stop_at(sizeless(our) == their ? "" : "answers on a damaged copy: " + std::to_string(our) + ", " + std::to_string(their), family, file.seed);
    given[YAFFLEDESK_NUMBER(our)]++;
}

// ---- The clock ----

using Contestant = uint64_t (*)();
constexpr int OURS = 0, ANEW = 1, KEPT = 2, CONTESTANTS = 3;
constexpr Contestant contestants[CONTESTANTS] = {ours, theirs<Anew>, theirs<Kept>};

struct Measured {
    std::vector<double> time[CONTESTANTS]; // for each file: the least of its repetitions, in microseconds
    std::vector<double> ratio, kept;       // over our time: that of LEMON run anew for each kind; that of LEMON with its graph kept
    double spread;
};

// The contestants take turns file by file, so that what disturbs the machine for a while disturbs all of them.
Measured measure(int family, const std::vector<PlanFile> &files) {
    Measured m;
    for (const PlanFile &file : files) {
        double least[CONTESTANTS];
        uint64_t given[CONTESTANTS][REPETITIONS];
        lay_out(file.bytes);
        for (int c = 0; c < CONTESTANTS; c++) {
            least[c] = least_time([&](int r) { given[c][r] = contestants[c](); });
            m.time[c].push_back(least[c]);
        }
        m.ratio.push_back(least[ANEW] / least[OURS]);
        m.kept.push_back(least[KEPT] / least[OURS]);
        for (int r = 0; r < REPETITIONS; r++) stop_at(fault(file, given[OURS][r], given[ANEW][r], given[KEPT][r]), family, file.seed);
    }
    m.spread = spread_of(m.ratio);
    return m;
}

double median_arcs(const std::vector<PlanFile> &files) {
    std::vector<double> arcs;
    for (const PlanFile &file : files) arcs.push_back(double(file.bytes.size() / RECORD - file.count - 1));
    return median(arcs);
}

// What all families come to.
struct Outcome {
    double least = 1e9, least_kept = 1e9; // ratios: to LEMON run for each kind, of which something is wanted, and to LEMON with its graph kept
    Tally given{}, given_damaged{};
};

// One line of the table. Of the median of the ratios and the ratio of the medians, the lesser counts.
void bench_family(int family, bool full, Outcome &outcome) {
    const auto files = files_of(family, PLANS, full);
    for (const PlanFile &file : files) {
        compare_damaged(family, file, outcome.given_damaged);
        outcome.given[YAFFLEDESK_NUMBER(expected(file))]++;
    }
    int tries;
    const Measured m = calmest([&] { return measure(family, files); }, tries);
    const double a = median(m.time[OURS]), b = median(m.time[ANEW]), c = median(m.time[KEPT]);
    const double each = median(m.ratio), all = b / a, kept = std::min(median(m.kept), c / a);
    std::printf("| %-16s | 0..%-4u | %4.0f | %6.2f | %11.2f | %11.2f | %13.2f | %16.2f | %7.2f | %5.2f%s |\n", FAMILIES[family].name,
                demands(FAMILIES[family]) - 1, median_arcs(files), a, b, c, each, all, kept, m.spread, tries > 1 ? "*" : " ");
    std::fflush(stdout);
    outcome.least = std::min({outcome.least, each, all});
    outcome.least_kept = std::min(outcome.least_kept, kept);
}

int bench(bool full) {
    std::printf("seed %llu, %d files to a family, least of %d repetitions, medians in microseconds%s\n\n", (unsigned long long)SEED, PLANS, REPETITIONS,
                full ? "; full files" : "");
    std::printf("| order            | demands | arcs |   ours | LEMON, anew | LEMON, kept | ratio, median | ratio of medians | to kept | spread |\n");
    std::printf("|------------------|---------|-----:|-------:|------------:|------------:|--------------:|-----------------:|--------:|-------:|\n");
    Outcome outcome;
    for (int f = 0; f < COUNT; f++) bench_family(f, full, outcome);
    const Tally &given = outcome.given, &given_damaged = outcome.given_damaged;
    std::printf("\nspread: of the median ratios of the tenths of the files, largest over least; *: measured again for being above %.2f\n", SILLY);
    std::printf("%d files accepted, %d overloaded: the answers of all repetitions, all needs and all sets as they should be\n", given[0], given[7]);
    std::printf("damaged copies, answered alike, number:count:");
    for (size_t number = 0; number < given_damaged.size(); number++)
        if (given_damaged[number] > 0) std::printf(" %zu:%d", number, given_damaged[number]);
    std::printf("\n%d families, least ratio to LEMON made anew %.2f, to LEMON kept %.2f", COUNT, outcome.least, outcome.least_kept);
    if (full) return std::printf("\n"), 0;
    const bool met = outcome.least >= WANTED && outcome.least_kept >= WANTED_KEPT;
    std::printf(", wanted %g and %g: %s\n", WANTED, WANTED_KEPT, met ? "met" : "not met");
    return met ? 0 : 1;
}

// One line for each family: our time for 8, 16, 32 and 64 activities, each with the ratios to LEMON made anew and kept.
int bench_sizes() {
    std::printf("seed %llu, %d files to a number of activities; microseconds, and the ratios to LEMON made anew and kept\n\n", (unsigned long long)SEED, PLANS);
    std::printf("| order            | demands |      8 activities |     16 activities |     32 activities |     64 activities |\n");
    std::printf("|------------------|---------|------------------:|------------------:|------------------:|------------------:|\n");
    bool falls = true;
    for (int f = 0; f < COUNT; f++) {
        std::printf("| %-16s | 0..%-4u |", FAMILIES[f].name, demands(FAMILIES[f]) - 1);
        double before = 0;
        for (int count = 8; count <= N; count *= 2) {
            int tries;
            const auto files = files_of(f, PLANS, false, count);
            const Measured m = calmest([&] { return measure(f, files); }, tries);
            const double a = median(m.time[OURS]);
            std::printf(" %5.2f %5.1f %5.1f |", a, median(m.time[ANEW]) / a, median(m.time[KEPT]) / a);
            std::fflush(stdout);
            falls = falls && before < a;
            before = a;
        }
        std::printf("\n");
    }
    std::printf("\nour time falls with the number of activities in every family: %s\n", falls ? "met" : "not met");
    return falls ? 0 : 1;
}

int main(int argc, char **argv) {
    keep_memory();
    const std::string mode = argc > 1 ? argv[1] : "";
    if (argc == 1 || (argc == 2 && mode == "--full")) return bench(argc == 2);
    if (argc == 2 && mode == "--sizes") return bench_sizes();
    const int family = argc == 4 ? std::atoi(argv[2]) : -1;
    if (family >= 0 && family < COUNT && mode == "--ours") {
        for (const PlanFile &file : files_of(family, std::atoi(argv[3]), false)) {
            lay_out(file.bytes);
            for (int r = 0; r < 1000; r++) ours();
        }
        return 0;
    }
    if (family >= 0 && family < COUNT && mode == "--plan") {
        const PlanFile file = file_with(family, std::strtoull(argv[3], nullptr, 10), false, N);
        Tally given{};
        compare_damaged(family, file, given);
        lay_out(file.bytes);
        stop_at(fault(file, ours(), theirs<Anew>(), theirs<Kept>()), family, file.seed);
        std::printf("number %d, checked\n", YAFFLEDESK_NUMBER(ours()));
        return 0;
    }
    std::fprintf(stderr, "usage: verdict [--sizes | --full | --ours FAMILY FILES | --plan FAMILY SEED]\n");
    return 2;
}
