// A crew's text: lines "activity start duration", in any order. # begins a comment, and blank lines are skipped.
#ifndef CREW_TEXT_H
#define CREW_TEXT_H

#include "refusal.h"

// A text has at most so many bytes, and a line so many before its comment and its end: far more than 64 lines of three
// numbers take, and few enough to be held.
enum { MOST_CREW_BYTES = 1 << 20, MOST_LINE_BYTES = 500 };

// What a text says, and which line says it of each activity, from 1.
struct crew_text {
    const char *name;
    struct crew crew;
    size_t lines[YAFFLEDESK_MOST_ACTIVITIES];
};

// Reads the text of this name, or standard input where it is "-". 1, or 0 where it cannot be read to its end or where
// something is wrong with it: that is said, line by line. The activities that are named are then 1 to the crew's count.
int crew_text_read(struct crew_text *text, const char *name);

#endif
