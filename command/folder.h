// The plans of a folder, its files *.plan, sorted by name; and where it is asked for, the folders in it, sorted among
// them. However many there are, no more than some 65,000 names are held at a time: the folder is gone through again for
// those that come next.
#ifndef FOLDER_H
#define FOLDER_H

#include <dirent.h>
#include <stddef.h>

enum { LONGEST_FOUND = 257, HELD_NAMES = 65536, HELD_BYTES = 1 << 20 };

// Names that are held, and their bytes, one after another.
struct held {
    char bytes[HELD_BYTES];
    size_t used, count;
    char *names[HELD_NAMES];
};

// Where names are gathered. One is enough for folders within folders: it is of the innermost.
struct room {
    struct held *held, *spare;
};

struct folder {
    DIR *entries;               // NULL where all of its names are held
    struct room *room;
    int is_deep;                // the folders in it are found too
    char **names;               // what is held, in the room, or in `kept`
    size_t count, at;           // so many, of which so many are given already
    char **kept;                // names of its own, while the room is another folder's
    int more;                   // there are some that were not held yet
    char last[LONGEST_FOUND];   // all up to this one are held, or were before
    char beyond[LONGEST_FOUND]; // those from this one on are for the next time; "" where all have room
    const char *trouble;        // why not all of it could be read, or NULL
};

// Whether a name, other than -, is a folder's.
int folder_is(const char *name);

// Takes the memory of a room, where it has none yet: NULL, or in words why there is none; and gives it back.
const char *room_take(struct room *room);
void room_free(struct room *room);

// Opens a folder: NULL, or in words why it cannot be read. One that was found in another is not opened by a link. The
// room is this folder's until it is closed or kept.
const char *folder_open(struct folder *folder, const char *name, struct room *room, int is_deep, int is_found);

// The next name, without the folder's: a plan's, or with a slash at its end that of a folder in it. NULL where there is
// none, or the folder cannot be read on. It holds until the next call.
const char *folder_next(struct folder *folder);

// Lets another folder have the room: what is still to be given is held elsewhere. 0 where there is no memory for that.
int folder_keep(struct folder *folder);

void folder_close(struct folder *folder);

// How many plans there are.
size_t folder_size(const char *name);

#endif
