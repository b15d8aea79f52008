// Outputs that are open already: standard output and others of this process's descriptors, by the names that they have.
#ifndef DESCRIPTOR_H
#define DESCRIPTOR_H

// The descriptor that an output's name means, or -1: what /dev/stdout, /dev/stderr, /dev/fd/N and /proc/self/fd/N lead
// to, also by links, open or not; and 1 or 2 where the name is one of the regular file that is open there.
int descriptor_named(const char *name);

// Another descriptor for what a descriptor is open on, which is none of the three standard ones; -1 with errno.
int descriptor_again(int file);

// The same, in place of the one given, which is closed; -1, with errno, where it is -1.
int descriptor_moved(int file);

#endif
