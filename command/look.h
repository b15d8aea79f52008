// How things look: a few calm colours that colour-blind readers can tell apart, and dashes beside them, so that a print in black and white can be
// read too. Red is for what is overloaded alone.
#ifndef LOOK_H
#define LOOK_H

#define INK "#1c2430"
#define GREY "#5b6672"
#define PALE "#dfe4e9"
#define BLUE "#1f5f99"
#define ORANGE "#b86200"
#define RED "#b8102a"

#define LOOK_PAPER "fill='#ffffff'"
#define LOOK_STRIPE "fill='#f3f6f9'"
#define LOOK_BEHIND_WORDS "fill='#ffffff' fill-opacity='0.9'"
#define LOOK_FRAME "fill='none' stroke='#aab4bf'"
#define LOOK_GRID "stroke='" PALE "'"
#define LOOK_AXIS "stroke='#7c8793'"
#define LOOK_END "stroke='" INK "' stroke-width='1.6'"

#define LOOK_BAR "fill='#b9d3ea' stroke='" BLUE "'"
#define LOOK_SHOWN_BAR "fill='url(#hatched)' stroke='" RED "' stroke-width='1.8'"
#define LOOK_MILESTONE "fill='" INK "' stroke='none'"
#define LOOK_JOB "stroke='" BLUE "'"
#define LOOK_EXTRA "stroke='" ORANGE "' stroke-dasharray='5 3'"
#define LOOK_JOB_WAIT "stroke='" BLUE "' stroke-width='1.4' stroke-dasharray='1.4 2.6'"
#define LOOK_JOB_WAIT_END "stroke='" BLUE "' stroke-width='0.9'"
#define LOOK_EXTRA_WAIT_END "stroke='" ORANGE "' stroke-width='0.9'"
#define LOOK_EXTRA_WAIT "stroke='" ORANGE "' stroke-width='1.4' stroke-dasharray='1.4 2.6'"

#define LOOK_LOAD "fill='#cddff0' stroke='#5f8fbd' stroke-width='1'"
#define LOOK_NEED "stroke='" ORANGE "' stroke-width='3.2'"
#define LOOK_AVAILABLE "stroke='" INK "' stroke-width='1.5' stroke-dasharray='7 4'"
#define LOOK_TORN "fill='none' stroke='" GREY "' stroke-width='0.8'"
#define LOOK_MISSING "fill='url(#missing)'"

// Words: their colour, and whether they begin, end or are centred at their point.
#define WORDS_FROM "fill='" INK "'"
#define WORDS_FROM_BOLD "fill='" INK "' font-weight='bold'"
#define WORDS_FROM_GREY "fill='" GREY "'"
#define WORDS_FROM_NEED "fill='" ORANGE "' font-weight='bold'"
#define WORDS_FROM_RED "fill='" RED "' font-weight='bold'"
#define WORDS_TO "text-anchor='end' fill='" INK "'"
#define WORDS_TO_GREY "text-anchor='end' fill='" GREY "'"
#define WORDS_TO_RED "text-anchor='end' fill='" RED "' font-weight='bold'"
#define WORDS_AMID "text-anchor='middle' fill='" INK "'"
#define WORDS_AMID_GREY "text-anchor='middle' fill='" GREY "'"
#define WORDS_AMID_RED "text-anchor='middle' fill='" RED "' font-weight='bold'"

// Hatching, and the heads of arrows, each in the colour of its line.
#define LOOK_DEFINITIONS \
    "<defs>\n" \
    "<pattern id='hatched' width='7' height='7' patternUnits='userSpaceOnUse' patternTransform='rotate(45)'>" \
    "<rect width='7' height='7' fill='#fff0f1'/><rect width='1.5' height='7' fill='" RED "'/></pattern>\n" \
    "<pattern id='missing' width='8' height='8' patternUnits='userSpaceOnUse' patternTransform='rotate(45)'>" \
    "<rect width='1.2' height='8' fill='" RED "'/></pattern>\n" \
    "<marker id='job' viewBox='0 0 8 8' refX='8' refY='4' markerWidth='8' markerHeight='8' markerUnits='userSpaceOnUse' orient='auto'>" \
    "<path d='M0 0.8L8 4L0 7.2z' fill='" BLUE "'/></marker>\n" \
    "<marker id='extra' viewBox='0 0 8 8' refX='8' refY='4' markerWidth='8' markerHeight='8' markerUnits='userSpaceOnUse' orient='auto'>" \
    "<path d='M0 0.8L8 4L0 7.2z' fill='" ORANGE "'/></marker>\n" \
    "</defs>\n"

#endif
