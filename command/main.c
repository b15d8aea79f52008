// yaffledesk: the planner for people who write no C. Each command reads a file or more, calls the proved library, and prints what it answers; what the numbers
// mean is in include/yaffledesk.h.
#include "commands.h"

// In which letters options.c names the options: k kind, p page, o output, B binary, j jobs, C csv, J json, H heading,
// W width, P progress, Q quiet, r recursive, F files-from, S summary, E allow-empty.
static const struct command commands[] = {
    {"list", "CJHWjPQorFSE", 1, SIZE_MAX, list_run},
    {"report", "o", 1, 1, report_run},
    {"starts", "o", 1, 1, starts_run},
    {"flow", "koB", 1, 1, flow_run},
    {"overload", "oB", 1, 1, overload_run},
    {"sheet", "kpo", 1, 1, sheet_run},
    {"trim", "o", 1, 1, trim_run},
    {"crew", "o", 2, 2, crew_run},
    {"draw", "o", 1, 1, draw_run},
    {0}
};

int main(int argc, char **argv) {
    struct options options;
    options_read(&options, argc, argv, commands);
    return options.command->run(&options);
}
