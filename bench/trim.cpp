// How fast the proved code trims a plan file, next to a pipeline in C++ with LEMON's maximum flow. README.md says what is measured.
//   trim              all families, checked and timed: a table and the verdict; exit status 1 on a mismatch, a ratio that is not reached or a file that takes
//                     too long
//   trim --family F   the same of the family F alone, from 0
//   trim --ours F K   only the proved function, 10 times on each of the first K files of the family F: for perf
//   trim --plan F S   only checks the file with the seed S of the family F: for a seed that a mismatch has printed
#include "pipeline.h"
#include "trimfile.h"
#include "turns.h"

#include <cstdio>
#include <cstdlib>
#include <cstring>
#include <string>

// At least so many times as fast as LEMON, and every file in less than so many microseconds.
constexpr double WANTED = 3, MOST = 50000;
// Rounds of each contestant on each file. The families with few files are those in which one round of C++ can take most of a second.
int rounds_of(const TrimFamily &family) { return family.files >= 10 ? 5 : 3; }

// The file under test, where both contestants read it, and where each of them writes: all of it is lent, and what is not written is compared too.
alignas(4096) uint8_t bytes[RECORDS * RECORD], ours_out[RECORDS * RECORD], theirs_out[RECORDS * RECORD];
size_t length;

void lay_out(const std::vector<uint8_t> &file) {
    length = file.size();
    std::memcpy(bytes, file.data(), length);
}

// ---- The contestants: each gets the file's bytes and the length of the memory it is lent, and gives the answer as yaffledesk.h has it ----

uint64_t ours(size_t lent) { return yaffledesk_trim(bytes, length, ours_out, lent); }

// What C++ did on the last file: the extra arcs that it went by, those that follow from others, those that were weighed, and all that went.
struct Work {
    int arcs, follow, weighed, gone;
} work;

bool has_wait(const uint8_t *record) { return record[4] != 0 || record[5] != 0; }

// Whether i is before j without the arc between them: some other arc of i leads there. No way from there comes back to i, so that the order with
// the arc says it.
bool follows(const uint64_t *joined, const uint64_t *order, int i, int j) {
    for (uint64_t rest = joined[i] & ~(uint64_t(1) << j); rest != 0; rest &= rest - 1)
        if (order[__builtin_ctzll(rest)] >> j & 1) return true;
    return false;
}

bool fits(const plain_plan &plan, const uint64_t *order) {
    Kept lemon(order, plan.count);
    return first_overload(plan, lemon) == 0;
}

// Takes the arcs that can go out of plan.extra.
void take_out(plain_plan &plan, uint64_t *order, const uint64_t *may_go) {
    uint64_t joined[N], without[N];
    for (int i = 0; i < N; i++) joined[i] = plan.job[i] | plan.extra[i];
    for (int i = 0; i < N; i++)
        for (uint64_t row = may_go[i]; row != 0; row &= row - 1) {
            const int j = __builtin_ctzll(row);
            const uint64_t arc = uint64_t(1) << j;
            if ((plan.job[i] & arc) || follows(joined, order, i, j)) {
                work.follow++;
            } else {
                work.weighed++;
                joined[i] &= ~arc;
                plain_order(joined, without);
                if (!fits(plan, without)) {
                    joined[i] |= arc;
                    continue;
                }
                std::memcpy(order, without, sizeof without);
            }
            work.gone++;
            plan.extra[i] &= ~arc;
            joined[i] = plan.job[i] | plan.extra[i];
        }
}

// The records before the extra arcs are written as they stand. Gives the count of records.
size_t write(const plain_plan &plan, const uint8_t *first_extra) {
    const size_t before = size_t(first_extra - bytes);
    std::memcpy(theirs_out, bytes, before);
    uint8_t *out = theirs_out + before;
    for (const uint8_t *record = first_extra; record < bytes + length; record += RECORD)
        if (plan.extra[record[1] - 1] >> (record[2] - 1) & 1) std::memcpy(out, record, RECORD), out += RECORD;
    return size_t(out - theirs_out) / RECORD;
}

uint64_t theirs(size_t lent) {
    plain_plan plan;
    uint64_t order[N], may_go[N] = {};
    work = {};
    if (const uint64_t refused = opened(bytes, length, plan, order)) return refused;
    if (lent < length) return packed(YAFFLEDESK_TOO_SHORT, length);
    {
        Kept lemon(order, plan.count);
        if (const uint64_t overload = first_overload(plan, lemon)) return overload;
    }
    const uint8_t *first_extra = bytes + length;
    while (first_extra[-RECORD] == 4) {
        first_extra -= RECORD;
        work.arcs++;
        if (!has_wait(first_extra)) may_go[first_extra[1] - 1] |= uint64_t(1) << (first_extra[2] - 1);
    }
    take_out(plan, order, may_go);
    return packed(YAFFLEDESK_DONE, write(plan, first_extra));
}

// ---- The files ----

PlanFile file_with(int family, uint64_t seed) {
    PlanFile file = trim_file_of(TRIM_FAMILIES[family], seed, lemon_need<false>);
    if (!TRIM_FAMILIES[family].trimmed) return file;
    lay_out(file.bytes);
    file.bytes.assign(theirs_out, theirs_out + RECORD * YAFFLEDESK_REST(theirs(sizeof theirs_out)));
    return file;
}

// The files of a family have seeds of their own, so that one of them can be made again without the others.
std::vector<PlanFile> files_of(int family, int files_wanted) {
    Random seeds{SEED + uint64_t(family)};
    std::vector<PlanFile> files;
    for (int k = 0; k < files_wanted; k++) files.push_back(file_with(family, seeds.next()));
    return files;
}

// ---- The checks ----

void stop(const std::string &what, int family, uint64_t seed) {
    std::printf("MISMATCH in family %d (%s), plan seed %llu: %s\n", family, TRIM_FAMILIES[family].name, (unsigned long long)seed, what.c_str());
    std::exit(1);
}

// How many calls got each number.
using Tally = std::array<int, 256>;

// Both on the same file: the same answer, and the same memory afterwards, to the last byte of what is lent. Gives the number.
unsigned compare(const char *what, const std::vector<uint8_t> &file, size_t lent, int family, uint64_t seed, Tally &given) {
    lay_out(file);
    std::memset(ours_out, 0xa5, sizeof ours_out);
    std::memset(theirs_out, 0xa5, sizeof theirs_out);
    const uint64_t our = ours(lent), their = theirs(lent);
    if (sizeless(our) != their) stop(std::string(what) + ": answers " + std::to_string(our) + ", " + std::to_string(their), family, seed);
    const size_t at = size_t(std::mismatch(ours_out, ours_out + sizeof ours_out, theirs_out).first - ours_out);
    if (at < sizeof ours_out) stop(std::string(what) + ": byte " + std::to_string(at) + " of the lent memory", family, seed);
    given[YAFFLEDESK_NUMBER(our)]++;
    return YAFFLEDESK_NUMBER(our);
}

// The file as it is; one byte too few lent; a kind of which nothing is available; and a damaged copy, which may be anything. Leaves the work of the first.
void compare_file(int family, const PlanFile &file, Tally &given) {
    Random random{~file.seed};
    const size_t all = sizeof ours_out;
    compare("damaged copy", damaged(file, random), all, family, file.seed, given);
    PlanFile none = file;
    none.available[random.below(KINDS)] = 0;
    put_crew(none);
    if (compare("nothing available", none.bytes, file.bytes.size(), family, file.seed, given) != YAFFLEDESK_OVERLOADED)
        stop("nothing available: not overloaded", family, file.seed);
    for (const std::vector<uint8_t> &which : {none.bytes, file.bytes})
        if (compare("too little lent", which, file.bytes.size() - 1, family, file.seed, given) != YAFFLEDESK_TOO_SHORT)
            stop("too little lent: not too short", family, file.seed);
    if (compare("the file", file.bytes, all, family, file.seed, given) != YAFFLEDESK_DONE) stop("not accepted", family, file.seed);
}

// ---- The clock ----

struct Measured {
    std::vector<double> ours, theirs, ratio;          // of each file: the least of its rounds, in microseconds, and the one over the other
    std::vector<double> arcs, follow, weighed, gone; // of each file
};

volatile uint64_t sink;

// Compared before they are timed. The contestants take turns file by file, so that what disturbs the machine for a while disturbs both.
Measured measure(int family, Tally &given) {
    Measured m;
    const int rounds = rounds_of(TRIM_FAMILIES[family]);
    for (const PlanFile &file : files_of(family, TRIM_FAMILIES[family].files)) {
        compare_file(family, file, given);
        m.arcs.push_back(work.arcs), m.follow.push_back(work.follow), m.weighed.push_back(work.weighed), m.gone.push_back(work.gone);
        m.ours.push_back(least_time([](int) { sink = ours(sizeof ours_out); }, rounds));
        m.theirs.push_back(least_time([](int) { sink = theirs(sizeof theirs_out); }, rounds));
        m.ratio.push_back(m.theirs.back() / m.ours.back());
    }
    return m;
}

// What all families come to.
struct Outcome {
    double least = 1e9, longest = 0; // ratio; time of one file, in microseconds
    int least_family = 0, longest_family = 0;
    Tally given{};
};

// One line of the table. Of the median of the ratios and the ratio of the medians, the lesser counts.
void bench_family(int f, Outcome &outcome) {
    const TrimFamily &family = TRIM_FAMILIES[f];
    const Measured m = measure(f, outcome.given);
    const double a = median(m.ours), b = median(m.theirs), ratio = std::min(median(m.ratio), b / a), longest = *std::max_element(m.ours.begin(), m.ours.end());
    std::printf("| %2d | %-21s | %-11s | %-9s | %-5s | %4.0f | %6.0f | %7.0f | %4.0f | %9.3f | %9.3f | %9.3f | %5.2f |\n", f, family.name, name_of(family.slack),
                name_of(family.numbering), family.waits ? "third" : "none", median(m.arcs), median(m.follow), median(m.weighed), median(m.gone), a / 1000,
                longest / 1000, b / 1000, ratio);
    std::fflush(stdout);
    if (ratio < outcome.least) outcome.least = ratio, outcome.least_family = f;
    if (longest > outcome.longest) outcome.longest = longest, outcome.longest_family = f;
}

// Of all families, or of one alone.
int bench(int from, int to) {
    std::printf("seed %llu, least of 3 to 5 rounds, medians of the files of a family; times in milliseconds\n\n", (unsigned long long)SEED);
    std::printf("|    | order                 | slack       | numbered  | waits | arcs | follow | weighed |   go |      ours |   longest |     LEMON | ratio |\n");
    std::printf("|---:|-----------------------|-------------|-----------|-------|-----:|-------:|--------:|-----:|----------:|----------:|----------:|------:|\n");
    Outcome outcome;
    for (int f = from; f < to; f++) bench_family(f, outcome);
    std::printf("\nanswered alike, with the same bytes, number:count:");
    for (size_t number = 0; number < outcome.given.size(); number++)
        if (outcome.given[number] > 0) std::printf(" %zu:%d", number, outcome.given[number]);
    const bool met = outcome.least >= WANTED && outcome.longest < MOST;
    std::printf("\n%d families, least ratio %.2f (family %d), wanted %g; longest time of a file %.3f ms (family %d, %s), wanted under %g: %s\n", to - from,
                outcome.least, outcome.least_family, WANTED, outcome.longest / 1000, outcome.longest_family, TRIM_FAMILIES[outcome.longest_family].name,
                MOST / 1000, met ? "met" : "not met");
    return met ? 0 : 1;
}

int main(int argc, char **argv) {
    keep_memory();
    if (argc == 1) return bench(0, TRIM_COUNT);
    const std::string mode = argv[1];
    const int family = argc > 2 ? std::atoi(argv[2]) : -1;
    const bool known = family >= 0 && family < TRIM_COUNT;
    if (argc == 3 && known && mode == "--family") return bench(family, family + 1);
    if (argc == 4 && known && mode == "--ours") {
        for (const PlanFile &file : files_of(family, std::atoi(argv[3]))) {
            lay_out(file.bytes);
            for (int r = 0; r < 10; r++) sink = ours(sizeof ours_out);
        }
        return 0;
    }
    if (argc == 4 && known && mode == "--plan") {
        Tally given{};
        compare_file(family, file_with(family, std::strtoull(argv[3], nullptr, 10)), given);
        std::printf("%d arcs: %d follow from others, %d were weighed, %d went; checked\n", work.arcs, work.follow, work.weighed, work.gone);
        return 0;
    }
    std::fprintf(stderr, "usage: trim [--family FAMILY | --ours FAMILY FILES | --plan FAMILY SEED]\n");
    return 2;
}
