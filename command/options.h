// A command as it is given: its name, its options, and what they are asked of.
#ifndef OPTIONS_H
#define OPTIONS_H

#include <stddef.h>
#include <stdint.h>

enum format { TABLE, CSV, JSON };

// Whether it is shown how far a list is: where that disturbs nobody, always, or never.
enum shown { USUAL, SHOWN, QUIET };

struct options {
    const struct command *command;
    char **names; // what follows the options: plans
    size_t count;
    int has_kind, has_page;
    uint64_t kind, page;
    const char *output; // NULL: standard output
    int binary;
    enum format format;
    int heading;
    size_t width; // of the column of names
    unsigned jobs;
    enum shown progress;
    int recursive, summary, allow_empty;
    const char *files_from; // NULL: none
};

// A command: which letters of options it takes, how many names, and what does its work and gives the exit status.
struct command {
    const char *name, *letters;
    size_t fewest, most;
    int (*run)(const struct options *options);
};

// Reads the words of the command line. Where that says all there is to do (help, version, a mistake), it ends the program.
void options_read(struct options *options, int argc, char **argv, const struct command *commands);

// What --help prints.
extern const char help_text[];

#endif
