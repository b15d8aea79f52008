// Bytes that come from outside: a file, or standard input, read into memory that is lent.
#ifndef INPUT_H
#define INPUT_H

#include <stddef.h>

// Reads a file by its name, or standard input where that is "-", to its end, or until the room is full; `len` is how
// many bytes came. NULL, or in words why it cannot be read so far.
const char *input_read(const char *name, void *bytes, size_t room, size_t *len);

// Opens it for that: a descriptor of its own, of standard input too. Less than 0 where that cannot be, and errno says
// why.
int input_open(const char *name);

// The same of a file that was just opened, which is closed then; where it could not be opened it is less than 0, and
// errno says why.
const char *input_take(int file, void *bytes, size_t room, size_t *len);

// What errno says, in words: those of strerror, which may not be called in several threads at a time. They hold until
// the same thread asks again.
const char *input_trouble(void);

#endif
