// What the commands on one plan share.
#ifndef ONE_H
#define ONE_H

#include "options.h"
#include "output.h"
#include "refusal.h"

// Makes a result of a plan, and gives the library's answer. With an answer other than 0 nothing of what it made is used.
typedef uint64_t maker(struct text *out, const struct plan *plan, const struct options *options, struct asked *asked);

// Whether the output is one of the files that are named, which would be lost by it: that is said then.
int one_spoils(const struct options *options);

// Reads the plan that is named, makes the result, and writes it where it is asked for; else says why not. Gives the exit status.
int one_run(const struct options *options, maker *make, enum content content);

// Reads the plan that is named; where it cannot be read, that is said.
int one_read(struct plan *plan, const char *name);

// Says that a plan is refused, and why. Gives the exit status.
int one_refused(const char *name, uint64_t answer, const struct plan *plan, const struct asked *asked);

// The same where a line of another file is at fault, or line 0, none, where it is the whole of it.
int one_refused_at(const char *name, size_t line, uint64_t answer, const struct plan *plan, const struct asked *asked);

#endif
