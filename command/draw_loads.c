#include "draw_parts.h"
#include "loads.h"
#include "look.h"
#include "svg.h"

#include <stdio.h>

static const double HEAD_LINE = 22, BETWEEN = 14;
static const double WORDS_SIZE = 11, TICKS_APART = 24, LABELS_APART = 14;

// Where so many times more is available than ever needed, one scale would leave nothing to see of the load: then the chart is torn.
enum { TEAR_FROM = 8 };

// The chart of a kind: its numbers, and the heights of its lines.
struct chart {
    unsigned kind;
    uint64_t need, available;
    struct load load;
    double top, bottom;
    struct scale scale;
    double need_y, available_y;
    bool is_torn; // what is available stands above the scale's end
};

static uint64_t greater(uint64_t one, uint64_t other) { return one > other ? one : other; }

static void lay_chart(struct chart *chart, const struct picture *picture, unsigned kind, double top, double bottom) {
    *chart = (struct chart){.kind = kind, .top = top, .bottom = bottom};
    chart->need = picture->needs[kind - 1];
    chart->available = plan_available(picture->plan, kind);
    loads_of(&chart->load, picture, kind);
    uint64_t most = greater(chart->need, chart->load.most);
    chart->is_torn = most > 0 && chart->available > TEAR_FROM * most;
    if (!chart->is_torn) most = greater(most, chart->available);
    chart->scale = (struct scale){.from = bottom, .to = chart->is_torn ? top + (bottom - top) * 0.36 : top, .most = most + most / 8 + 1};
    chart->need_y = scale_place(&chart->scale, chart->need);
    chart->available_y = chart->is_torn ? top + 6 : scale_place(&chart->scale, chart->available);
}

static void draw_steps(struct text *svg, const struct picture *picture, const struct chart *chart) {
    struct seen seen;
    loads_seen(&seen, &chart->load, picture);
    if (seen.count == 0) return;
    double y = chart->bottom;
    svg_path(svg, LOOK_LOAD);
    for (size_t i = 0; i < seen.count; i++) {
        double x = seen.steps[i].x;
        svg_lead(svg, i == 0 ? 'M' : 'L', x, y);
        y = scale_place(&chart->scale, seen.steps[i].occupied);
        svg_lead(svg, 'L', x, y);
    }
    text_put(svg, "z");
    svg_path_end(svg);
}

static void draw_heights(struct text *svg, const struct picture *picture, const struct chart *chart) {
    uint64_t step = scale_step(&chart->scale, TICKS_APART);
    for (uint64_t number = 0; number <= chart->scale.most; number += step) {
        double y = scale_place(&chart->scale, number);
        svg_line(svg, LOOK_GRID, picture->time.from, y, picture->time.to, y);
        svg_words(svg, WORDS_TO_GREY, WORDS_SIZE - 1, picture->time.from - 8, y, "%s", scale_grouped(number).digits);
    }
}

// A zigzag from side to side.
static void draw_zigzag(struct text *svg, double left, double right, double y) {
    double tooth = 6;
    svg_path(svg, LOOK_TORN);
    svg_lead(svg, 'M', left, y);
    for (double x = left + 2 * tooth; x <= right; x += 2 * tooth) text_put(svg, "l6 -3l6 3");
    svg_path_end(svg);
}

static void draw_tear(struct text *svg, const struct picture *picture, const struct chart *chart) {
    double left = picture->time.from - 4, right = picture->time.to + 6, y = (chart->available_y + chart->scale.to) / 2;
    svg_rect(svg, LOOK_PAPER, left, y - 2, right - left, 4);
    draw_zigzag(svg, left, right, y - 1);
    draw_zigzag(svg, left, right, y + 4);
}

// The numbers at the right ends of the two lines, moved apart where they would run into each other.
static void draw_labels(struct text *svg, double x, const struct chart *chart) {
    double need_y = chart->need_y, available_y = chart->available_y;
    bool need_is_above = chart->need >= chart->available;
    double *upper = need_is_above ? &need_y : &available_y, *lower = need_is_above ? &available_y : &need_y;
    double missing = LABELS_APART - (*lower - *upper);
    if (missing > 0) {
        *lower += missing / 2;
        if (*lower > chart->bottom) *lower = chart->bottom;
        *upper = *lower - LABELS_APART;
    }
    svg_words(svg, WORDS_FROM_NEED, WORDS_SIZE, x, need_y, "need %s", scale_grouped(chart->need).digits);
    svg_words(svg, WORDS_FROM, WORDS_SIZE, x, available_y, "available %s", scale_grouped(chart->available).digits);
}

// The heading says which kind it is, what the timetable occupies, and in red what is missing.
static void draw_heading(struct text *svg, const struct picture *picture, const struct chart *chart) {
    char words[128];
    double x = picture->time.from, y = chart->top - HEAD_LINE / 2;
    snprintf(words, sizeof words, "kind %u", chart->kind);
    svg_words(svg, WORDS_FROM_BOLD, WORDS_SIZE + 1, x, y, "%s", words);
    x += svg_bold_width(words, WORDS_SIZE + 1) + 12;
    snprintf(words, sizeof words, "this timetable occupies at most %s", scale_grouped(chart->load.most).digits);
    svg_words(svg, WORDS_FROM_GREY, WORDS_SIZE, x, y, "%s", words);
    x += svg_width(words, WORDS_SIZE) + 16;
    if (chart->need > chart->available)
        svg_words(svg, WORDS_FROM_RED, WORDS_SIZE + 1, x, y, "needs %s, has %s", scale_grouped(chart->need).digits,
                  scale_grouped(chart->available).digits);
    if (chart->is_torn) svg_words(svg, WORDS_FROM_GREY, WORDS_SIZE, x, y, "(the scale is torn: far more is available)");
}

static void draw_chart(struct text *svg, const struct picture *picture, const struct chart *chart) {
    double left = picture->time.from, right = picture->time.to;
    draw_heading(svg, picture, chart);
    draw_heights(svg, picture, chart);
    draw_grid(svg, picture, chart->top, chart->bottom);
    draw_steps(svg, picture, chart);
    if (chart->need > chart->available) svg_rect(svg, LOOK_MISSING, left, chart->need_y, right - left, chart->available_y - chart->need_y);
    if (chart->is_torn) draw_tear(svg, picture, chart);
    svg_line(svg, LOOK_AXIS, left, chart->bottom, right, chart->bottom);
    svg_line(svg, LOOK_NEED, left, chart->need_y, right, chart->need_y);
    svg_line(svg, LOOK_AVAILABLE, left, chart->available_y, right, chart->available_y);
    draw_labels(svg, right + 8, chart);
}

double draw_loads(struct text *svg, const struct picture *picture, double top) {
    double height = 280.0 / picture->kinds;
    height = height > 140 ? 140 : height < 72 ? 72 : height;
    for (unsigned kind = 1; kind <= picture->kinds; kind++) {
        struct chart chart;
        lay_chart(&chart, picture, kind, top + HEAD_LINE, top + HEAD_LINE + height);
        text_put(svg, "<g>");
        svg_title(svg, "kind %u: need %s, available %s, this timetable occupies at most %s", kind, scale_grouped(chart.need).digits,
                  scale_grouped(chart.available).digits, scale_grouped(chart.load.most).digits);
        text_put(svg, "\n");
        draw_chart(svg, picture, &chart);
        text_put(svg, "</g>\n");
        top = chart.bottom + BETWEEN;
    }
    draw_ticks(svg, picture, top + 4);
    return top + 14;
}
