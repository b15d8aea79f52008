// How far a list is, for whoever waits for it: a line on standard error, from the first second on.
#ifndef PROGRESS_H
#define PROGRESS_H

#include "options.h"

struct progress {
    int shown, is_over; // whether at all; and whether each line is written over the one before
    size_t done, all;   // plans; all is 0 where that is not known
    double began, said;
};

// The lines go to this file. Progress is shown where it is asked for, or else, where it is not refused, where the lines
// go to a regular file and standard error is a terminal: neither a pipe's reader nor a pager is written over.
struct progress progress_begin(const struct options *options, int lines);

// So many plans more are done: says it, where it is time to.
void progress_add(struct progress *progress, size_t plans);

// Takes the line away, so that something else can be said.
void progress_clear(const struct progress *progress);

#endif
