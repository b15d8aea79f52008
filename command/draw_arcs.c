// Arcs and their waits. A job arc is blue and whole and runs along the upper half of its bars, an extra arc is orange and dashed and runs
// along the lower half, so that both are seen where a pair is both.
#include "arcs.h"
#include "draw_parts.h"
#include "look.h"
#include "svg.h"

// Of a bar's height: how far above its middle job arcs leave it and come to it, and below it extra arcs.
static const double LANE = 0.2;
static const double ROOM_FOR_CURVE = 18, MOST_OUT = 36;

// A diamond is narrower there than at its middle.
static double right_of(const struct picture *picture, unsigned activity) {
    return picture_right(picture, activity) - (picture_is_milestone(picture, activity) ? picture->bar_height * LANE : 0);
}

static double left_of(const struct picture *picture, unsigned activity) {
    return picture_left(picture, activity) + (picture_is_milestone(picture, activity) ? picture->bar_height * LANE : 0);
}

static double lane_of(const struct picture *picture, bool is_extra, unsigned activity) {
    double aside = picture->bar_height * LANE;
    return picture_row(picture, activity) + (is_extra ? aside : -aside);
}

struct point {
    double x, y;
};

// Where an activity finishes as the next one starts, or nearly, there is no room for a curve from the one to the other: the arc turns round
// behind its bar, between two rows, and goes on before the bars that start then, the further out the longer it is. Extra arcs go further out
// than job arcs, so that they do not lie on the one of the same pair.
static void lead_round(struct text *svg, const struct picture *picture, const struct arc *arc, struct point from, struct point to) {
    double turn = picture->row_height / 2, hook = arc->is_extra ? 15 : 10;
    double between = picture_row(picture, arc->from) + (to.y > from.y ? turn : -turn) + (arc->is_extra ? 1.5 : -1.5);
    double fall = to.y > between ? to.y - between : between - to.y;
    double out = (arc->is_extra ? 19 : 12) + fall * 0.12;
    double most_out = arc->is_extra ? MOST_OUT : MOST_OUT - 6;
    if (out > most_out) out = most_out;
    svg_lead(svg, 'C', from.x + hook, from.y);
    svg_lead(svg, ' ', from.x + hook, between);
    svg_lead(svg, ' ', from.x, between);
    svg_lead(svg, 'C', to.x - out, between);
    svg_lead(svg, ' ', to.x - out, to.y);
    svg_lead(svg, ' ', to.x, to.y);
}

static void lead_across(struct text *svg, struct point from, struct point to) {
    double half = (to.x - from.x) / 2;
    svg_lead(svg, 'C', from.x + half, from.y);
    svg_lead(svg, ' ', to.x - half, to.y);
    svg_lead(svg, ' ', to.x, to.y);
}

// An arc leaves its bar, or the stretch of its wait, to the right, and comes to the next bar from the left.
static void draw_arc(struct text *svg, const struct picture *picture, const struct arc *arc) {
    struct point from = {right_of(picture, arc->from), lane_of(picture, arc->is_extra, arc->from)};
    struct point to = {left_of(picture, arc->to), lane_of(picture, arc->is_extra, arc->to)};
    if (arc->wait > 0) from.x = picture_at(picture, picture_finish(picture, arc->from) + arc->wait);
    svg_path(svg, "");
    svg_lead(svg, 'M', from.x, from.y);
    if (to.x - from.x < ROOM_FOR_CURVE)
        lead_round(svg, picture, arc, from, to);
    else
        lead_across(svg, from, to);
    const char *type = arc->is_extra ? "extra" : "job";
    if (arc->wait > 0)
        svg_path_end_titled(svg, "%s arc %u to %u, wait %s", type, arc->from, arc->to, scale_grouped(arc->wait).digits);
    else
        svg_path_end_titled(svg, "%s arc %u to %u", type, arc->from, arc->to);
}

// All arcs of a type that follow from others, or that do not. They are one group with one opacity, so that however many cross each other they
// never become darker than a single one; and the more there are, the paler and thinner they are.
static void draw_group(struct text *svg, const struct picture *picture, const struct arcs *arcs, bool is_extra, bool follows) {
    double count = (double)arcs_count(arcs, follows);
    double opacity = follows ? 0.1 + 0.42 * 40 / (40 + count) : 0.2 + 0.76 * 200 / (200 + count);
    double width = follows ? 0.6 + 0.6 * 60 / (60 + count) : 0.6 + 1.0 * 120 / (120 + count);
    text_print(svg, "<g fill='none' %s marker-end='url(#%s)' stroke-width='", is_extra ? LOOK_EXTRA : LOOK_JOB, is_extra ? "extra" : "job");
    svg_number(svg, width);
    text_put(svg, "' opacity='");
    svg_number(svg, opacity);
    text_put(svg, "'>\n");
    for (size_t i = 0; i < arcs->count; i++)
        if (arcs->arcs[i].is_extra == is_extra && arcs->arcs[i].follows == follows) draw_arc(svg, picture, &arcs->arcs[i]);
    text_put(svg, "</g>\n");
}

// A dotted stretch behind the bar, as long as the longest wait of a type of arcs, with a stroke where each of them ends.
static void draw_waits(struct text *svg, const struct picture *picture, const struct arcs *arcs, unsigned activity, bool is_extra) {
    double left = right_of(picture, activity), right = left;
    double y = lane_of(picture, is_extra, activity), aside = picture->bar_height * LANE;
    for (unsigned wait = 0; (wait = arcs_next_wait(arcs, activity, is_extra, wait)) > 0;) {
        right = picture_at(picture, picture_finish(picture, activity) + wait);
        svg_line(svg, is_extra ? LOOK_EXTRA_WAIT_END : LOOK_JOB_WAIT_END, right, y - aside, right, y + aside);
    }
    if (right > left) svg_line(svg, is_extra ? LOOK_EXTRA_WAIT : LOOK_JOB_WAIT, left, y, right, y);
}

// The next wait of an activity by arcs of either type.
static unsigned next_wait(const struct arcs *arcs, unsigned activity, unsigned wait) {
    unsigned job = arcs_next_wait(arcs, activity, false, wait), extra = arcs_next_wait(arcs, activity, true, wait);
    return job == 0 || (extra > 0 && extra < job) ? extra : job;
}

// The numbers of an activity's waits, shortest first, each before the end of its stretch, where there is room behind the one before.
static void draw_wait_numbers(struct text *svg, const struct picture *picture, const struct arcs *arcs, unsigned activity) {
    double room_from = picture_right(picture, activity) + 3, y = picture_row(picture, activity);
    double size = picture->text_size - 1;
    for (unsigned wait = 0; (wait = next_wait(arcs, activity, wait)) > 0;) {
        double end = picture_at(picture, picture_finish(picture, activity) + wait) - 4;
        const char *word = "wait ";
        struct grouped grouped = scale_grouped(wait);
        double digits = svg_width(grouped.digits, size), width = digits + svg_width(word, size);
        if (end - room_from < width + 12) {
            word = "";
            width = digits;
        }
        if (end - room_from < width + 2) continue;
        svg_rect(svg, LOOK_BEHIND_WORDS, end - width - 3, y - size * 0.55, width + 5, size * 1.1);
        svg_words(svg, WORDS_TO, size, end, y, "%s%s", word, grouped.digits);
        room_from = end + 8;
    }
}

struct arcs_drawn draw_arcs(struct text *svg, const struct picture *picture) {
    struct arcs arcs;
    struct arcs_drawn drawn = {0};
    arcs_of(&arcs, picture->plan);
    for (size_t i = 0; i < arcs.count; i++) {
        drawn.job |= !arcs.arcs[i].is_extra;
        drawn.extra |= arcs.arcs[i].is_extra;
        *(arcs.arcs[i].is_extra ? &drawn.extra_follows : &drawn.job_follows) |= arcs.arcs[i].follows;
        drawn.waits |= arcs.arcs[i].wait > 0;
    }
    for (int group = 0; group < 4; group++) draw_group(svg, picture, &arcs, group % 2 == 1, group < 2);
    for (unsigned activity = 1; activity <= picture->activities; activity++) {
        draw_waits(svg, picture, &arcs, activity, false);
        draw_waits(svg, picture, &arcs, activity, true);
        draw_wait_numbers(svg, picture, &arcs, activity);
    }
    return drawn;
}
