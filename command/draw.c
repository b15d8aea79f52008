#include "draw.h"

#include "draw_parts.h"
#include "look.h"
#include "refusal.h"
#include "svg.h"

#include <stdio.h>

static const double NAME_SIZE = 21, VERDICT_SIZE = 14;
static const double BETWEEN_PARTS = 18;

static const char *s_if_many(unsigned count) { return count == 1 ? "" : "s"; }

// Whether the plan is accepted, and if not, who is too many, in a sentence.
static void put_verdict(struct text *words, const struct picture *picture) {
    unsigned number = YAFFLEDESK_NUMBER(picture->verdict);
    if (number == YAFFLEDESK_DONE) {
        text_print(words, "accepted: %u activit%s, %u kind%s", picture->activities, picture->activities == 1 ? "y" : "ies", picture->kinds,
                   s_if_many(picture->kinds));
    } else {
        text_print(words, "refused %u: ", number);
        refusal_say_grouped(words, picture->verdict, picture->plan);
    }
    text_add(words, "", 1);
}

// All kinds in words, for those who hear the picture.
static void put_needs(struct text *svg, const struct picture *picture) {
    for (unsigned kind = 1; kind <= picture->kinds; kind++)
        text_print(svg, ". Kind %u: need %s, available %s", kind, scale_grouped(picture->needs[kind - 1]).digits,
                   scale_grouped(plan_available(picture->plan, kind)).digits);
    text_print(svg, ". The timetable ends at %s.", scale_grouped(picture_end(picture)).digits);
}

static double draw_head(struct text *svg, const struct picture *picture, const char *name, const char *verdict) {
    double width = PAPER_RIGHT - PAPER_SIDE, y = 30;
    svg_cut_words(svg, WORDS_FROM_BOLD, NAME_SIZE, PAPER_SIDE, y, width, name);
    return svg_paragraph(svg, picture->shown_kind == 0 ? WORDS_FROM : WORDS_FROM_RED, VERDICT_SIZE, PAPER_SIDE, y + 18, width, verdict);
}

static struct arcs_drawn draw_rows(struct text *svg, struct picture *picture, double top) {
    picture->rows_top = draw_row_heads(svg, picture, top);
    double bottom = picture_rows_bottom(picture);
    draw_stripes(svg, picture);
    draw_grid(svg, picture, picture->rows_top, bottom);
    struct arcs_drawn arcs = draw_arcs(svg, picture);
    draw_bars(svg, picture);
    svg_line(svg, LOOK_AXIS, picture->time.from, picture->rows_top, picture->time.to, picture->rows_top);
    svg_line(svg, LOOK_AXIS, picture->time.from, bottom, picture->time.to, bottom);
    return arcs;
}

// What every picture begins with. Its height is known when all is drawn.
static void put_opening(struct text *svg, const struct picture *picture, const char *name, const char *verdict, double height) {
    text_put(svg, "<?xml version='1.0' encoding='UTF-8'?>\n<svg xmlns='http://www.w3.org/2000/svg' version='1.1' role='img'");
    text_print(svg, " width='%d' height='%ld' viewBox='0 0 %d %ld'", PAPER_WIDTH, (long)height, PAPER_WIDTH, (long)height);
    text_put(svg, " font-family=\"DejaVu Sans, Helvetica, Arial, sans-serif\">\n<title>Plan ");
    svg_escaped(svg, name);
    text_put(svg, "</title>\n<desc>");
    svg_escaped(svg, verdict);
    put_needs(svg, picture);
    text_put(svg, "</desc>\n" LOOK_DEFINITIONS);
    svg_rect(svg, LOOK_PAPER, 0, 0, PAPER_WIDTH, (double)(long)height);
}

uint64_t draw_plan(struct text *svg, const struct plan *plan, const char *name) {
    struct picture picture;
    uint64_t answer = picture_of(&picture, plan);
    if (YAFFLEDESK_NUMBER(answer) != YAFFLEDESK_DONE) return answer;
    struct text verdict = {0}, parts = {0};
    put_verdict(&verdict, &picture);
    double y = draw_head(&parts, &picture, name, verdict.bytes);
    struct arcs_drawn arcs = draw_rows(&parts, &picture, y + BETWEEN_PARTS);
    y = draw_loads(&parts, &picture, picture_rows_bottom(&picture) + BETWEEN_PARTS);
    y = draw_legend(&parts, &picture, &arcs, y + BETWEEN_PARTS);
    put_opening(svg, &picture, name, verdict.bytes, y + BETWEEN_PARTS);
    text_add(svg, parts.bytes, parts.len);
    text_put(svg, "</svg>\n");
    text_free(&parts);
    text_free(&verdict);
    return 0;
}
