// The plans that a list is asked for, in the order in which their lines stand: those of the command line, and then
// those of the text of --files-from. A name is a plan's, or a folder's.
#ifndef WALK_H
#define WALK_H

#include "folder.h"
#include "names.h"
#include "workers.h"

// A folder that is entered. The first bytes of the walk's path are its name, and its name with a slash.
struct level {
    struct folder folder;
    size_t name, prefix;
};

struct walk {
    const struct options *options;
    const struct which *output; // the file that the lines go to
    size_t at;                  // the next name of the command line
    struct names names;         // the text behind it
    int is_over;                // that is read, or there is none
    struct room room;
    struct level *levels; // from the folder that is named to the innermost: so many, and room for so many
    size_t depth, deepest;
    struct text path;
    size_t found; // plans, in the folder that is named and below it
};

void walk_begin(struct walk *walk, const struct options *options, const struct which *output);

// Fills a batch, and says whether there is more: what a source does. What cannot be read is said, and the rest goes on.
int walk_fill(void *walk, struct batch *batch);

// Gives all memory back, wherever it is.
void walk_end(struct walk *walk);

#endif
