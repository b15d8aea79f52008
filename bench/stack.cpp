// How deep the stack gets below a caller of each operation: on a thread whose stack is painted before the call, and looked at after it.
// What is kept free but never written is not seen; the files go through everything that an operation does. README.md says how to run it.
#include "planfile.h"

#include <algorithm>
#include <cstdio>
#include <cstdlib>
#include <pthread.h>

#include "yaffledesk.h"

constexpr size_t STACK = 1 << 20, WORDS = STACK / sizeof(uint64_t), MOST = 256 << 10;
constexpr int FILES = 10; // of each family

alignas(4096) uint64_t stack[WORDS];

// What is on the paint differs from word to word: no operation writes it by chance.
uint64_t paint(size_t at) { return Random{at}.next(); }

// ---- The calls ----

uint32_t numbers[N + 1], starts[N], durations[N];
uint8_t records[YAFFLEDESK_FLOW_BYTES(N)], text[YAFFLEDESK_REPORT_BYTES];
std::vector<uint8_t> plan;
uint64_t kind, page, answer;

void nothing() { answer = 0; }
void verdict() { answer = yaffledesk_verdict(plan.data(), plan.size()); }
void set() { answer = yaffledesk_set(plan.data(), plan.size()); }
void needs() { answer = yaffledesk_needs(plan.data(), plan.size(), numbers, N + 1); }
void earliest() { answer = yaffledesk_starts(plan.data(), plan.size(), numbers, N + 1); }
void flow() { answer = yaffledesk_flow(plan.data(), plan.size(), kind, records, sizeof records); }
void sheet() { answer = yaffledesk_sheet(plan.data(), plan.size(), kind, page, records, sizeof records); }
void trim() { answer = yaffledesk_trim(plan.data(), plan.size(), records, sizeof records); }
void overload() { answer = yaffledesk_overload(plan.data(), plan.size(), records, sizeof records); }
void crew_check() { answer = yaffledesk_crew_check(plan.data(), plan.size(), starts, N, durations, N); }
void report() { answer = yaffledesk_report(plan.data(), plan.size(), text, sizeof text); }

struct Operation {
    const char *name;
    void (*call)();
    size_t deepest;
    int given[256]; // how often it gave each number
} operations[] = {
    {"verdict", verdict, 0, {}}, {"set", set, 0, {}},           {"needs", needs, 0, {}},           {"starts", earliest, 0, {}},
    {"flow", flow, 0, {}},       {"sheet", sheet, 0, {}},       {"trim", trim, 0, {}},             {"overload", overload, 0, {}},
    {"crew_check", crew_check, 0, {}}, {"report", report, 0, {}},
};
Operation &flow_operation = operations[4], &sheet_operation = operations[5];

// ---- The thread ----

void stop(const char *what) {
    std::fprintf(stderr, "stack: %s\n", what);
    std::exit(2);
}

struct Visit {
    void (*call)();
    size_t depth; // of the deepest word that is no longer as it was painted, below the frame of `visit`
};

// Looks at the stack from within the thread, since its end also uses some. From the far end: what the call left unwritten in between counts.
void *visit(void *given) {
    Visit &v = *static_cast<Visit *>(given);
    v.call();
    size_t at = 0;
    while (at < WORDS && stack[at] == paint(at)) at++;
    v.depth = size_t(static_cast<char *>(__builtin_frame_address(0)) - reinterpret_cast<char *>(stack + at));
    return nullptr;
}

size_t depth_of(void (*call)()) {
    for (size_t at = 0; at < WORDS; at++) stack[at] = paint(at);
    Visit v{call, 0};
    pthread_attr_t attributes;
    pthread_t thread;
    if (pthread_attr_init(&attributes) != 0 || pthread_attr_setstack(&attributes, stack, STACK) != 0) stop("no stack of its own");
    if (pthread_create(&thread, &attributes, visit, &v) != 0 || pthread_join(thread, nullptr) != 0) stop("no thread");
    pthread_attr_destroy(&attributes);
    return v.depth;
}

void run(Operation &operation) {
    operation.deepest = std::max(operation.deepest, depth_of(operation.call));
    operation.given[operation.call == set ? answer != 0 : YAFFLEDESK_NUMBER(answer)]++; // a set is the whole answer: none, or one
}

// ---- The files ----

void run_all() {
    for (kind = 1; kind < KINDS; kind++) run(flow_operation), run(sheet_operation); // of kind 8, with the others below
    for (Operation &operation : operations) run(operation);
}

// Where this file's crew starts and how long it works: as early as the arcs allow, or all at once.
void work(bool at_once) {
    earliest();
    for (int i = 0; i < N; i++) {
        starts[i] = at_once ? 0 : numbers[i];
        durations[i] = plan[i * RECORD + 2] + 256u * plan[i * RECORD + 3];
    }
}

void run_file(PlanFile &file, uint32_t available) {
    file.available.fill(available);
    put_crew(file);
    plan = file.bytes;
    work(false), page = 1;
    run_all();
    work(true), page = 99; // of no sheet
    run_all();
}

uint32_t no_need(const uint64_t *, const uint32_t *, int) { return 0; }

// Each file with all that a crew can be, which is enough for every need, and with nothing, which is not; and a damaged copy. Half are full files.
void run_family(int family) {
    Random seeds{SEED + uint64_t(family)};
    for (int k = 0; k < FILES; k++) {
        PlanFile file = file_of(FAMILIES[family], seeds.next(), N, k % 2 == 0, no_need);
        run_file(file, 65535);
        run_file(file, 0);
        Random random{file.seed};
        plan = damaged(file, random);
        run_all();
    }
}

// ---- The report ----

void print_given(const Operation &operation) {
    if (operation.call == set) return void(std::printf(" none %d, one %d", operation.given[0], operation.given[1]));
    for (int number = 0; number < 256; number++)
        if (operation.given[number] > 0) std::printf(" %d:%d", number, operation.given[number]);
}

int main() {
    for (int f = 0; f < COUNT; f++) run_family(f);
    const size_t empty = depth_of(nothing);
    size_t deepest = 0;
    std::printf("| operation | deepest, bytes | answers, number:count |\n|---|--:|---|\n");
    for (const Operation &operation : operations) {
        const size_t depth = operation.deepest - empty;
        std::printf("| %s | %zu |", operation.name, depth);
        print_given(operation);
        std::printf(" |\n");
        deepest = std::max(deepest, depth);
    }
    std::printf("less %zu bytes of a call that does nothing\n", empty);
    std::printf("deepest %zu bytes, wanted at most %zu: %s\n", deepest, MOST, deepest <= MOST ? "met" : "not met");
    return deepest <= MOST ? 0 : 1;
}
