// Where a result goes: to a file, to standard output or to another descriptor that is open.
#ifndef OUTPUT_H
#define OUTPUT_H

#include "status.h"
#include "text.h"
#include "which.h"

enum content { TEXT, BINARY };

// An output while it is written to.
struct output {
    const char *name; // as it is said
    int file;
    char *replaces;     // the file whose place it takes when all is written; NULL: it is written to as it stands
    int is_new;         // there is no such file yet
    struct stat was;    // else: that file
    struct which which; // the regular file that it is, or that it replaces
    int trouble;        // errno of the first piece that could not be written
};

// Opens the output of this name, or standard output where it is NULL; a name of a descriptor (descriptor.h) means what
// that is open on. Gives the exit status; what went wrong is said, and the output is not open then. Binary content does
// not go to a terminal.
int output_begin(struct output *output, const char *name, enum content content);

// Writes a piece. Gives whether it went well; where it did not, output_end says so.
int output_add(struct output *output, const void *bytes, size_t len);

// All pieces are written: puts a file in its place, and gives the exit status; what went wrong is said. Until then, and
// if it goes wrong, a file is what it was.
int output_end(struct output *output);

// Ends it without any of that: a file stays what it was.
void output_abandon(struct output *output);

// Begins, adds all of it and ends.
int output_write(const char *name, const struct text *bytes, enum content content);

// Whether an output of this name goes where standard output goes.
int output_is_standard(const char *name);

// Whether an output of this name is the file that a name of an input leads to (- is standard input): that is said then.
int output_is_input(const char *name, const char *input);

// How standard output is named where something is said of it.
extern const char output_standard[];

// Writes all to a file that is open: 0, or errno.
int write_all(int file, const void *bytes, size_t len);

#endif
