#include "draw_parts.h"
#include "look.h"
#include "svg.h"

#include <stdio.h>
#include <string.h>

static const double HEAD_SIZE = 11, HEAD_LINE = 16;
static const char NOBODY[] = "nobody";
static const double WORDS_GAP = 4; // between words and the edge of their bar
static const double HATCHING_SEEN = 16; // so much of a hatched bar is left free of words

double draw_row_heads(struct text *svg, const struct picture *picture, double top) {
    double first = top + HEAD_LINE / 2, second = first + HEAD_LINE;
    const double *column = picture->column;
    svg_words(svg, WORDS_FROM_GREY, HEAD_SIZE, PAPER_SIDE, second, "activity");
    svg_words(svg, WORDS_AMID_GREY, HEAD_SIZE, picture->demands_middle, first, "demands of kind");
    for (unsigned kind = 1; kind <= picture->kinds; kind++)
        svg_words(svg, kind == picture->shown_kind ? WORDS_TO_RED : WORDS_TO_GREY, HEAD_SIZE, column[kind - 1], second, "%u", kind);
    svg_words(svg, WORDS_FROM_GREY, HEAD_SIZE, picture->time.from - 4, first, "time in periods");
    draw_ticks(svg, picture, second);
    return top + 2 * HEAD_LINE + 2;
}

// Every other row is tinted, so that the eye finds the way from a number to its bar.
void draw_stripes(struct text *svg, const struct picture *picture) {
    double height = picture->row_height;
    for (unsigned row = 1; row < picture->activities; row += 2)
        svg_rect(svg, LOOK_STRIPE, PAPER_SIDE - 6, picture->rows_top + row * height, picture->time.to - PAPER_SIDE + 6, height);
}

// What an activity demands, in words: "2 of kind 1, 1 of kind 3".
static void demand_words(struct text *words, const struct picture *picture, unsigned activity) {
    const char *between = "";
    for (unsigned kind = 1; kind <= picture->kinds; kind++) {
        unsigned demand = plan_demand(picture->plan, activity, kind);
        if (demand == 0) continue;
        text_print(words, "%s%u of kind %u", between, demand, kind);
        between = ", ";
    }
    if (*between == 0) text_put(words, NOBODY);
    text_add(words, "", 1);
}

static void draw_title(struct text *svg, const struct picture *picture, unsigned activity, const char *demands) {
    struct grouped start = scale_grouped(picture_start(picture, activity)), finish = scale_grouped(picture_finish(picture, activity));
    if (picture_is_milestone(picture, activity))
        svg_title(svg, "milestone %u at %s", activity, start.digits);
    else
        svg_title(svg, "activity %u: start %s, finish %s, demands %s%s", activity, start.digits, finish.digits, demands,
                  picture_is_shown(picture, activity) ? "; one of those that may all be at work at once" : "");
    text_put(svg, "\n");
}

// The number and what is demanded of each kind, in columns; of the set that is shown, what its overloaded kind adds up from stands out.
static void draw_numbers(struct text *svg, const struct picture *picture, unsigned activity) {
    double y = picture_row(picture, activity), size = picture->text_size;
    bool shown = picture_is_shown(picture, activity);
    svg_words(svg, shown ? WORDS_TO_RED : WORDS_TO, size + 1, PAPER_SIDE + 36, y, "%u", activity);
    for (unsigned kind = 1; kind <= picture->kinds; kind++) {
        unsigned demand = plan_demand(picture->plan, activity, kind);
        const char *look = shown && kind == picture->shown_kind ? WORDS_TO_RED : WORDS_TO;
        if (demand > 0) svg_words(svg, look, size, picture->column[kind - 1], y, "%u", demand);
    }
}

static void draw_diamond(struct text *svg, double left, double right, double y) {
    double middle = (left + right) / 2, half = (right - left) / 2;
    svg_path(svg, LOOK_MILESTONE);
    svg_lead(svg, 'M', left, y);
    svg_lead(svg, 'L', middle, y - half);
    svg_lead(svg, 'L', right, y);
    svg_lead(svg, 'L', middle, y + half);
    text_put(svg, "z");
    svg_path_end(svg);
}

// In the bar: the number and what is demanded where there is room for both, else the number, else nothing. The columns have both at any rate.
static void draw_bar_words(struct text *svg, const struct picture *picture, unsigned activity, const char *demands) {
    char words[LONGEST_WORDS];
    double left = picture_left(picture, activity), y = picture_row(picture, activity);
    double room = picture_right(picture, activity) - left - 2 * WORDS_GAP;
    if (picture_is_shown(picture, activity)) room -= HATCHING_SEEN;
    double size = picture->bar_height < 14 ? 9.5 : picture->bar_height < 18 ? 10.5 : 11.5;
    snprintf(words, sizeof words, "%u: %s", activity, demands);
    if (svg_width(words, size) > room || strcmp(demands, NOBODY) == 0) snprintf(words, sizeof words, "%u", activity);
    double width = svg_width(words, size);
    if (width > room) return;
    if (picture_is_shown(picture, activity)) {
        double height = picture->bar_height - 2; // within the bar's edge
        svg_rect(svg, LOOK_BEHIND_WORDS, left + 1, y - height / 2, width + 2 * WORDS_GAP, height);
    }
    svg_words(svg, WORDS_FROM, size, left + WORDS_GAP, y, "%s", words);
}

static void draw_bar(struct text *svg, const struct picture *picture, unsigned activity, const char *demands) {
    double left = picture_left(picture, activity), right = picture_right(picture, activity), y = picture_row(picture, activity);
    if (picture_is_milestone(picture, activity)) {
        draw_diamond(svg, left, right, y);
        return;
    }
    const char *look = picture_is_shown(picture, activity) ? LOOK_SHOWN_BAR : LOOK_BAR;
    svg_rect(svg, look, left, y - picture->bar_height / 2, right - left, picture->bar_height);
    draw_bar_words(svg, picture, activity, demands);
}

void draw_bars(struct text *svg, const struct picture *picture) {
    struct text demands = {0};
    for (unsigned row = 0; row < picture->activities; row++) {
        unsigned activity = picture->rows[row];
        text_clear(&demands);
        demand_words(&demands, picture, activity);
        text_put(svg, "<g>");
        draw_title(svg, picture, activity, demands.bytes);
        draw_numbers(svg, picture, activity);
        draw_bar(svg, picture, activity, demands.bytes);
        text_put(svg, "</g>\n");
    }
    text_free(&demands);
    if (picture->activities == 0)
        svg_words(svg, WORDS_FROM_GREY, 12, picture->time.from + 12, picture->rows_top + picture->row_height / 2, "no activities");
}
