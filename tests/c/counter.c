// The planner through its C interface, as a counter screen calls it: every refusal of a file, results of every operation, crew sheets, milestones,
// repeated arcs, waits, added marks, trimmed plans, reports.
// It runs in the project's root, prints a line for each check that fails, and ends with 'N passed, M failed'.
#include "checks.h"

int main(void) {
    refusals();
    results();
    milestones();
    repeats();
    waits();
    added();
    trims();
    reports();
    check_all_seen();
    printf("%u passed, %u failed\n", passed, failed);
    return failed == 0 ? 0 : 1;
}
