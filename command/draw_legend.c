#include "draw_parts.h"
#include "look.h"
#include "svg.h"

static const double SIZE = 11, LINE = 20, SAMPLE = 34, GAP = 26;

// Samples with their words, side by side and then in the next line.
struct legend {
    struct text *svg;
    double x, y, next; // the sample's left end and middle, and where the next one may begin
};

// Goes on to the next sample, which is then drawn at the legend's x and y.
static void explain(struct legend *legend, const char *words) {
    double width = SAMPLE + 8 + svg_width(words, SIZE);
    if (legend->next + width > PAPER_RIGHT) {
        legend->next = PAPER_SIDE;
        legend->y += LINE;
    }
    legend->x = legend->next;
    legend->next += width + GAP;
    svg_words(legend->svg, WORDS_FROM, SIZE, legend->x + SAMPLE + 8, legend->y, "%s", words);
}

static void sample_rect(const struct legend *legend, const char *look, double height) {
    svg_rect(legend->svg, look, legend->x, legend->y - height / 2, SAMPLE, height);
}

static void sample_line(const struct legend *legend, const char *look) {
    svg_line(legend->svg, look, legend->x, legend->y, legend->x + SAMPLE, legend->y);
}

static void explain_bars(struct legend *legend, const struct picture *picture) {
    bool bars = false, milestones = false;
    for (unsigned activity = 1; activity <= picture->activities; activity++) {
        milestones |= picture_is_milestone(picture, activity);
        bars |= !picture_is_milestone(picture, activity) && !picture_is_shown(picture, activity);
    }
    if (bars) {
        explain(legend, "activity");
        sample_rect(legend, LOOK_BAR, 12);
    }
    if (picture->shown != 0) {
        bool alone = (picture->shown & (picture->shown - 1)) == 0;
        explain(legend, alone ? "this one alone is too much" : "these may all be at work at once, and are too much");
        sample_rect(legend, LOOK_SHOWN_BAR, 12);
    }
    if (milestones) {
        explain(legend, "milestone");
        svg_path(legend->svg, LOOK_MILESTONE);
        svg_lead(legend->svg, 'M', legend->x + SAMPLE / 2 - 6, legend->y);
        text_put(legend->svg, "l6 -6l6 6l-6 6z");
        svg_path_end(legend->svg);
    }
}

static void explain_arcs(struct legend *legend, const struct arcs_drawn *arcs) {
    if (arcs->job) {
        explain(legend, arcs->job_follows ? "job arc (paler: follows from other arcs)" : "job arc");
        sample_line(legend, LOOK_JOB " stroke-width='1.5' marker-end='url(#job)'");
    }
    if (arcs->extra) {
        explain(legend, arcs->extra_follows ? "extra arc (paler: follows from other arcs)" : "extra arc");
        sample_line(legend, LOOK_EXTRA " stroke-width='1.5' marker-end='url(#extra)'");
    }
    if (arcs->waits) {
        explain(legend, "wait of an arc");
        sample_line(legend, LOOK_JOB_WAIT);
    }
}

static void explain_charts(struct legend *legend, const struct picture *picture) {
    bool occupied = false, missing = false;
    for (unsigned kind = 1; kind <= picture->kinds; kind++) {
        occupied |= picture->needs[kind - 1] > 0; // then some activity demands it
        missing |= picture->needs[kind - 1] > plan_available(picture->plan, kind);
    }
    if (occupied) {
        explain(legend, "occupied by this timetable");
        sample_rect(legend, LOOK_LOAD, 12);
    }
    explain(legend, "need");
    sample_line(legend, LOOK_NEED);
    explain(legend, "available");
    sample_line(legend, LOOK_AVAILABLE);
    if (missing) {
        explain(legend, "needed and not available");
        sample_rect(legend, LOOK_MISSING, 14);
    }
}

double draw_legend(struct text *svg, const struct picture *picture, const struct arcs_drawn *arcs, double top) {
    struct legend legend = {.svg = svg, .y = top + LINE / 2, .next = PAPER_SIDE};
    explain_bars(&legend, picture);
    explain_arcs(&legend, arcs);
    explain_charts(&legend, picture);
    double y = legend.y + LINE;
    return svg_paragraph(svg, WORDS_FROM_GREY, SIZE, PAPER_SIDE, y, PAPER_RIGHT - PAPER_SIDE,
                         "Bars are the earliest starts by the listed durations. The need holds for all working times: it is the most that can "
                         "ever be occupied at once, whatever durations the crew works in.");
}
