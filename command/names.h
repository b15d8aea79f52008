// Names that stand in a text, one a line (--files-from). They are read one after another: however many there are, one
// is held.
#ifndef NAMES_H
#define NAMES_H

#include "text.h"
#include "which.h"

#include <limits.h>
#include <stdio.h>

struct names {
    const char *from; // the text's own name; - is standard input
    FILE *file;       // NULL where there is none, or no more of it
    size_t line;
    char name[PATH_MAX + 1];
};

// Opens the text. 0 where it cannot be read: that is added to the complaints.
int names_open(struct names *names, const char *from, struct text *complaints);

// Which file it is, while it is open.
struct which names_which(const struct names *names);

enum line { NO_LINE, NAME, FAULTY };

// The next line that is not empty: a name, which is in `name` then, or one that cannot be a name, which is added to the
// complaints with its number; NO_LINE at the end. FAULTY is also a text that cannot be read on; that is its end then.
enum line names_next(struct names *names, struct text *complaints);

void names_close(struct names *names);

#endif
