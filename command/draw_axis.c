#include "draw_parts.h"
#include "look.h"
#include "svg.h"

#include <stdio.h>

static const double TICK_SIZE = 11;

// Ticks stand so far apart that the number of the last one fits between them.
static uint64_t tick_step(const struct picture *picture) {
    double width = svg_width(scale_grouped(picture->time.most).digits, TICK_SIZE);
    return scale_step(&picture->time, width * 1.5 + 24);
}

void draw_grid(struct text *svg, const struct picture *picture, double top, double bottom) {
    uint64_t step = tick_step(picture);
    for (uint64_t time = 0; time <= picture->time.most; time += step) {
        double x = picture_at(picture, time);
        svg_line(svg, LOOK_GRID, x, top, x, bottom);
    }
    double end = picture_at(picture, picture_end(picture));
    svg_line(svg, LOOK_END, end, top, end, bottom);
}

// The end is named at its line. A tick whose number would run into that has none.
void draw_ticks(struct text *svg, const struct picture *picture, double y) {
    char words[64];
    snprintf(words, sizeof words, "end %s", scale_grouped(picture_end(picture)).digits);
    double end = picture_at(picture, picture_end(picture)), end_right = end + svg_bold_width(words, TICK_SIZE);
    uint64_t step = tick_step(picture);
    for (uint64_t time = 0; time <= picture->time.most; time += step) {
        struct grouped grouped = scale_grouped(time);
        double x = picture_at(picture, time), half = svg_width(grouped.digits, TICK_SIZE) / 2 + 9;
        if (x + half < end || x - half > end_right) svg_words(svg, WORDS_AMID_GREY, TICK_SIZE, x, y, "%s", grouped.digits);
    }
    svg_words(svg, WORDS_FROM_BOLD, TICK_SIZE, end - 3, y, "%s", words);
}
