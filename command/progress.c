#include "progress.h"

#include "folder.h"
#include "which.h"

#include <stdio.h>
#include <stdlib.h>
#include <string.h>
#include <time.h>
#include <unistd.h>

static double now(void) {
    struct timespec time;
    clock_gettime(CLOCK_MONOTONIC, &time);
    return (double)time.tv_sec + 1e-9 * (double)time.tv_nsec;
}

// A terminal on which a line can be taken away again.
static int is_terminal(void) {
    const char *kind = getenv("TERM");
    return isatty(STDERR_FILENO) && (kind == NULL || strcmp(kind, "dumb") != 0);
}

static int is_shown(const struct options *options, int lines) {
    if (options->progress != USUAL) return options->progress == SHOWN;
    return is_terminal() && which_open(lines).is;
}

static size_t count(const struct options *options) {
    size_t all = 0;
    for (size_t i = 0; i < options->count; i++)
        all += folder_is(options->names[i]) ? folder_size(options->names[i]) : 1;
    return all;
}

struct progress progress_begin(const struct options *options, int lines) {
    struct progress progress = {.shown = is_shown(options, lines), .is_over = is_terminal(), .began = now()};
    int is_known = !options->recursive && options->files_from == NULL;
    if (progress.shown && is_known) progress.all = count(options);
    return progress;
}

static void say(const struct progress *progress, double seconds) {
    char of[32] = "";
    if (progress->all > 0) snprintf(of, sizeof of, " of %zu", progress->all);
    fprintf(stderr, "%s%zu%s plans, %.0f a second%s", progress->is_over ? "\r" : "", progress->done, of,
            (double)progress->done / seconds, progress->is_over ? "\033[K" : "\n");
}

void progress_add(struct progress *progress, size_t plans) {
    double time = now(), seconds = time - progress->began;
    progress->done += plans;
    if (!progress->shown || seconds < 1 || time - progress->said < 0.2) return;
    progress->said = time;
    say(progress, seconds);
}

void progress_clear(const struct progress *progress) {
    if (progress->said > 0 && progress->is_over) fputs("\r\033[K", stderr);
}
