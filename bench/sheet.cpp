// How long the proved code takes for a page of a crew sheet, next to C++ that sorts the records and prints the page; and for the whole operation, next to
// Flow. README.md says what is measured.
//   sheet             both tables; exit status 1 on a mismatch, or where a page takes more than MOST times as long as in C++
//   sheet --ours P K  only the proved page P of the largest flow, K times: for perf
#include "network.h"
#include "planfile.h"
#include "turns.h"

#include <cstdio>
#include <cstdlib>
#include <cstring>
#include <string>
#include <tuple>

#include "yaffledesk.h"

// Writes a page of the sheet of n flow records, and gives the count of pages. Entry i - 1 of the starts is node i's; the end is the last.
extern "C" size_t yaffledesk_bench_page(const uint8_t *flow, size_t flow_len, size_t n, const uint32_t *starts, size_t starts_len, uint64_t kind, size_t page,
                                        uint8_t *out, size_t out_len);

constexpr double MOST = 3;
constexpr size_t LINE = 41, LINES = 59, END = N + 1; // a line with its newline, the records of a page, the node behind the activities
constexpr int ROUNDS = 51, FILES = 200;              // turns at each page, files of each family

// What both contestants read and write.
alignas(4096) uint8_t flow[YAFFLEDESK_FLOW_BYTES(N)];
alignas(4096) uint8_t ours_out[YAFFLEDESK_SHEET_BYTES], theirs_out[YAFFLEDESK_SHEET_BYTES];
alignas(4096) uint8_t bytes[RECORDS * RECORD];
uint32_t starts[END];
size_t records, length;
volatile uint64_t sink;

// ---- The contestants: each gets the records and the starts, writes a page, and gives the count of pages ----

size_t ours(uint64_t kind, size_t page) { return yaffledesk_bench_page(flow, sizeof flow, records, starts, END, kind, page, ours_out, sizeof ours_out); }

struct Handover {
    uint32_t start, units;
    uint8_t from, to;
};

bool ahead(const Handover &a, const Handover &b) { return std::tie(a.start, a.from, a.to) < std::tie(b.start, b.from, b.to); }

template <class... Values> void print(size_t place, const char *format, Values... values) {
    char line[LINE + 1];
    std::snprintf(line, sizeof line, format, values...);
    std::memcpy(theirs_out + LINE * place, line, LINE);
}

size_t theirs(uint64_t kind, size_t page) {
    std::vector<Handover> sorted;
    sorted.reserve(records);
    for (size_t i = 0; i < records; i++) {
        const uint8_t *record = flow + RECORD * i, to = record[YAFFLEDESK_AT_TO];
        sorted.push_back({starts[to - 1], yaffledesk_units(record), record[YAFFLEDESK_AT_FROM], to});
    }
    std::stable_sort(sorted.begin(), sorted.end(), ahead);
    print(0, "KIND %u %3u%30s\n", unsigned(kind), unsigned(page), "");
    for (size_t line = 0; line < LINES; line++) {
        const size_t i = LINES * (page - 1) + line;
        if (i < records)
            print(line + 1, "%3u %3u %8u %10u%13s\n", sorted[i].from, sorted[i].to, sorted[i].units, sorted[i].start, "");
        else
            print(line + 1, "%40s\n", "");
    }
    return records == 0 ? 1 : (records + LINES - 1) / LINES;
}

// ---- The checks ----

void stop(const std::string &what) {
    std::printf("MISMATCH: %s\n", what.c_str());
    std::exit(1);
}

// Every page of the records at hand, byte for byte. Gives their count.
size_t compare(const std::string &what, uint64_t kind) {
    const size_t pages = theirs(kind, 1);
    for (size_t page = 1; page <= pages; page++) {
        std::memset(ours_out, 0xff, sizeof ours_out); // A page that is not written is not to pass as the one before.
        theirs(kind, page);
        if (ours(kind, page) != pages) stop(what + ": another count of pages");
        if (std::memcmp(ours_out, theirs_out, sizeof ours_out) != 0) stop(what + ": page " + std::to_string(page));
    }
    return pages;
}

// ---- Pages of the largest flow ----

// Units from every node to every later one: as many records as a flow of 64 activities is lent bytes for.
void largest_flow() {
    Random random{SEED};
    records = 0;
    for (size_t from = 0; from <= N; from++)
        for (size_t to = from + 1; to <= END; to++) {
            uint8_t *record = flow + RECORD * records++;
            record[0] = YAFFLEDESK_FLOW_RECORD, record[YAFFLEDESK_AT_KIND] = 1;
            record[YAFFLEDESK_AT_FROM] = uint8_t(from), record[YAFFLEDESK_AT_TO] = uint8_t(to);
            put_half(record + YAFFLEDESK_AT_UNITS, 1 + random.below(65535));
        }
}

// Starts of the activities and then of the end, by their place from 0.
struct Timetable {
    const char *name;
    uint32_t (*start)(uint32_t place);
} const TIMETABLES[] = {
    {"65 starts, ascending", [](uint32_t place) { return 1000 * place; }}, // as a plan with such a flow has them: all of its activities are in a row
    {"65 starts, scrambled", [](uint32_t place) { return 1000 * (place < N ? (37 * place + 11) % N : N); }},
    {"8 starts", [](uint32_t place) { return 1000 * (place < N ? 5 * place % 7 : 7); }},
    {"one start", [](uint32_t) { return 1000u; }},
};

void set_out(const Timetable &timetable) {
    for (uint32_t place = 0; place < END; place++) starts[place] = timetable.start(place);
}

struct Measured {
    size_t page;
    double ours, theirs; // microseconds
    double ratio() const { return ours / theirs; }
};

// The two take turns, so that what disturbs the machine for a while disturbs both; the least time of each counts.
Measured measure_page(size_t page) {
    Measured m{page, 1e9, 1e9};
    for (int round = 0; round < ROUNDS; round++) {
        m.ours = std::min(m.ours, least_time([&](int) { sink = sink + ours(1, page); }));
        m.theirs = std::min(m.theirs, least_time([&](int) { sink = sink + theirs(1, page); }));
    }
    return m;
}

// The first page, the middle one, the last one, and the one of the greatest ratio, which it gives.
double print_pages(const char *name, const std::vector<Measured> &pages) {
    const Measured worst = *std::max_element(pages.begin(), pages.end(), [](const Measured &a, const Measured &b) { return a.ratio() < b.ratio(); });
    for (const Measured &m : {pages.front(), pages[pages.size() / 2], pages.back(), worst})
        std::printf("| %-20s | %4zu | %6.2f | %6.2f | %5.2f |\n", name, m.page, m.ours, m.theirs, m.ratio());
    std::fflush(stdout);
    return worst.ratio();
}

// The greatest ratio of all pages.
double bench_pages() {
    double greatest = 0;
    std::printf("%zu records, least of %d turns of %d calls, in microseconds\n\n", records, ROUNDS, REPETITIONS);
    std::printf("| starts               | page | proved |    C++ | ratio |\n|----------------------|-----:|-------:|-------:|------:|\n");
    for (const Timetable &timetable : TIMETABLES) {
        set_out(timetable);
        const size_t count = compare(timetable.name, 1);
        std::vector<Measured> pages;
        for (size_t page = 1; page <= count; page++) pages.push_back(measure_page(page));
        greatest = std::max(greatest, print_pages(timetable.name, pages));
    }
    return greatest;
}

// ---- The whole operation, on the accepted files of verdict's families ----

bool accepted(const PlanFile &file) {
    return std::equal(file.need.begin(), file.need.end(), file.available.begin(), [](uint32_t need, uint32_t available) { return need <= available; });
}

uint64_t run_flow(uint64_t kind) { return yaffledesk_flow(bytes, length, kind, flow, sizeof flow); }
uint64_t run_starts() { return yaffledesk_starts(bytes, length, starts, END); }
uint64_t run_sheet(uint64_t kind, uint64_t page) { return yaffledesk_sheet(bytes, length, kind, page, ours_out, sizeof ours_out); }

void lay_out(const std::vector<uint8_t> &file) {
    length = file.size();
    std::memcpy(bytes, file.data(), length);
}

// Every page of every kind of the file that is laid out, byte for byte with C++'s of the same flow and starts. Gives the records of kind 1.
size_t compare_file(const std::string &what) {
    size_t of_kind_1 = 0;
    for (uint64_t kind = KINDS; kind >= 1; kind--) {
        const uint64_t answer = run_flow(kind);
        if (YAFFLEDESK_NUMBER(answer) != YAFFLEDESK_DONE || YAFFLEDESK_NUMBER(run_starts()) != YAFFLEDESK_DONE) stop(what + ": no flow or no starts");
        records = of_kind_1 = YAFFLEDESK_REST(answer);
        const size_t pages = compare(what, kind);
        for (size_t page = 1; page <= pages; page++) {
            theirs(kind, page);
            if (run_sheet(kind, page) != uint64_t(pages) << 8 || std::memcmp(ours_out, theirs_out, sizeof ours_out) != 0) stop(what + ": the operation");
        }
    }
    return of_kind_1;
}

// One line of the table: kind 1, page 1. Gives the ratio of the page alone, of these records.
double bench_family(int family) {
    Random seeds{SEED + uint64_t(family)};
    std::vector<double> sizes, flows, earliest, sheets, mine, its;
    while (sheets.size() < FILES) {
        const PlanFile file = file_of(FAMILIES[family], seeds.next(), N, false, lemon_need<false>);
        if (!accepted(file)) continue;
        lay_out(file.bytes);
        sizes.push_back(double(compare_file(std::string(FAMILIES[family].name) + ", plan seed " + std::to_string(file.seed))));
        flows.push_back(least_time([&](int) { sink = sink + run_flow(1); }));
        earliest.push_back(least_time([&](int) { sink = sink + run_starts(); }));
        sheets.push_back(least_time([&](int) { sink = sink + run_sheet(1, 1); }));
        mine.push_back(least_time([&](int) { sink = sink + ours(1, 1); }));
        its.push_back(least_time([&](int) { sink = sink + theirs(1, 1); }));
    }
    const double ratio = median(mine) / median(its);
    std::printf("| %-16s | 0..%-4u | %7.0f | %6.2f | %6.2f | %6.2f | %6.2f | %6.2f | %5.2f |\n", FAMILIES[family].name, demands(FAMILIES[family]) - 1,
                median(sizes), median(flows), median(earliest), median(sheets), median(mine), median(its), ratio);
    std::fflush(stdout);
    return ratio;
}

// The greatest ratio of all families.
double bench_operation() {
    double greatest = 0;
    std::printf("\nseed %llu, %d accepted files to a family, least of %d repetitions, medians in microseconds; kind 1, page 1\n\n", (unsigned long long)SEED, FILES,
                REPETITIONS);
    std::printf("| order            | demands | records |   Flow | Starts |  Sheet |   page | in C++ | ratio |\n");
    std::printf("|------------------|---------|--------:|-------:|-------:|-------:|-------:|-------:|------:|\n");
    for (int f = 0; f < COUNT; f++) greatest = std::max(greatest, bench_family(f));
    return greatest;
}

int main(int argc, char **argv) {
    keep_memory();
    largest_flow();
    if (argc == 4 && std::string(argv[1]) == "--ours") {
        set_out(TIMETABLES[0]);
        for (int i = 0; i < std::atoi(argv[3]); i++) sink = sink + ours(1, size_t(std::atoi(argv[2])));
        return 0;
    }
    if (argc != 1) return std::fprintf(stderr, "usage: sheet [--ours PAGE TIMES]\n"), 2;
    const double largest = bench_pages(), usual = bench_operation();
    const bool met = largest <= MOST && usual <= MOST;
    std::printf("\nevery page of both tables is the one that C++ prints\n");
    std::printf("greatest ratio %.2f in the largest flow, %.2f in the flows of files, wanted at most %g: %s\n", largest, usual, MOST, met ? "met" : "not met");
    return met ? 0 : 1;
}
