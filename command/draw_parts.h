// The parts of a picture. Each is drawn where the picture was laid out or from a height on, and those give the height behind what they drew.
#ifndef DRAW_PARTS_H
#define DRAW_PARTS_H

#include "picture.h"
#include "text.h"

// The time axis: light lines at its ticks, and the end of the timetable, from one height to another; and the numbers in a line at a height.
void draw_grid(struct text *svg, const struct picture *picture, double top, double bottom);
void draw_ticks(struct text *svg, const struct picture *picture, double y);

// The rows: stripes and headings below all, then arcs and waits, and then numbers, demands and bars.
double draw_row_heads(struct text *svg, const struct picture *picture, double top);
void draw_stripes(struct text *svg, const struct picture *picture);
void draw_bars(struct text *svg, const struct picture *picture);

// What the arcs of a plan are, for those who explain what is drawn.
struct arcs_drawn {
    bool job, extra, waits;
    bool job_follows, extra_follows; // some of them follow from others
};
struct arcs_drawn draw_arcs(struct text *svg, const struct picture *picture);

// The charts of all kinds.
double draw_loads(struct text *svg, const struct picture *picture, double top);

double draw_legend(struct text *svg, const struct picture *picture, const struct arcs_drawn *arcs, double top);

#endif
