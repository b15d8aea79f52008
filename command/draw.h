// Draws a plan as an SVG picture: its timetable by earliest starts, and what it needs of each kind.
#ifndef DRAW_H
#define DRAW_H

#include "plan.h"
#include "text.h"

// The answer of the library: 0, or a refusal, with which nothing is drawn: the file's numbers, 1 to 6, 12 and 13. Overloaded plans are drawn. The
// name is shown whatever bytes it holds.
uint64_t draw_plan(struct text *svg, const struct plan *plan, const char *name);

#endif
