// A plan's line of the price list: its name, what the planner makes of it, and for each kind the need and what is available. A line depends on nothing but its
// plan, so that lists can be made in parts: a table's columns have widths of their own, whatever stands in other lines.
#ifndef QUOTE_H
#define QUOTE_H

#include "options.h"
#include "plan.h"
#include "text.h"

// Adds a plan's line. Gives the number of its verdict: 0 where it is accepted.
unsigned quote_plan(struct text *out, const struct plan *plan, const char *name, const struct options *options);

// Adds the line above the lines, of a table or of CSV.
void quote_heading(struct text *out, const struct options *options);

#endif
