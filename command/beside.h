// A file that is written beside the one whose place it is to take, so that whoever reads that one finds what was there
// before, or all of what is new. A signal that ends the program removes it, and so does exit. There is one at a time.
#ifndef BESIDE_H
#define BESIDE_H

// Makes such a file in the folder of the name, for whoever owns it alone. Gives its descriptor, or -1 with errno.
int beside_begin(const char *name);

// Puts it in the place of the name; where that cannot be, removes it. 0, or errno.
int beside_end(const char *name);

// Removes it.
void beside_abandon(void);

#endif
