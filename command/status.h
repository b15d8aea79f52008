// Exit statuses of every command.
#ifndef STATUS_H
#define STATUS_H

enum {
    STATUS_DONE = 0,
    STATUS_REFUSED = 1, // a plan is refused, or a crew does not fit
    STATUS_TROUBLE = 2  // the command is not understood, or a file cannot be read or written
};

#endif
