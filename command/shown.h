// Names of files as they are shown: a file can be named anything, and a line of output is to stay one line, of its format.
#ifndef SHOWN_H
#define SHOWN_H

#include "text.h"

// For people. What a terminal would obey or could not show is written as \xNN, and a backslash as \\; so two names are never shown alike. Gives how many
// characters that is.
size_t shown_name(struct text *out, const char *name);

// A field of CSV (RFC 4180): in quotes where it has to be. The name in it is the one for people.
void shown_csv(struct text *out, const char *name);
void csv_field(struct text *out, const char *bytes, size_t len);

// A string of JSON (RFC 8259): the name as it is. A byte that is not of UTF-8, which JSON cannot say, is U+FFFD.
void shown_json(struct text *out, const char *name);

// What is wrong with a file, as a line "yaffledesk: NAME: WHAT": behind a text, or on standard error.
__attribute__((format(printf, 3, 4))) void complaint(struct text *out, const char *name, const char *format, ...);
__attribute__((format(printf, 2, 3))) void complain(const char *name, const char *format, ...);

// The same of one of its lines, counted from 1, as "yaffledesk: NAME:LINE: WHAT", on standard error; line 0 is none.
__attribute__((format(printf, 3, 4))) void complain_at(const char *name, size_t line, const char *format, ...);

#endif
