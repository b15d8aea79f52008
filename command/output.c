#include "output.h"

#include "beside.h"
#include "descriptor.h"
#include "shown.h"

#include <errno.h>
#include <fcntl.h>
#include <stdio.h>
#include <stdlib.h>
#include <string.h>
#include <unistd.h>

const char output_standard[] = "standard output";

int write_all(int file, const void *bytes, size_t len) {
    const char *from = bytes;
    while (len > 0) {
        ssize_t put = write(file, from, len);
        if (put < 0 && errno == EINTR) continue;
        if (put < 0) return errno;
        from += put;
        len -= (size_t)put;
    }
    return 0;
}

static int cannot_write(const char *name, int trouble) {
    complain(name, "cannot be written: %s", strerror(trouble));
    return STATUS_TROUBLE;
}

// ---- Files that are replaced

static mode_t new_rights(void) {
    mode_t mask = umask(0);
    umask(mask);
    return 0666 & ~mask;
}

// With the owner and the rights of the file that it replaces, or those that a new one gets; and all bytes on the disk,
// as far as it can be asked for that. Whoever may not give a file away keeps it.
static int finish(int file, const struct stat *was) {
    if (was != NULL && fchown(file, was->st_uid, was->st_gid) != 0 && errno != EPERM && errno != EINVAL) return errno;
    if (fchmod(file, was != NULL ? was->st_mode & 07777 : new_rights()) != 0) return errno;
    if (fsync(file) != 0 && errno != EINVAL && errno != ENOTSUP) return errno;
    return 0;
}

// Where the name is a link to a file, it is that file which is replaced.
static void begin_beside(struct output *output, const char *name) {
    output->replaces = realpath(name, NULL);
    if (output->replaces == NULL) output->replaces = strdup(name);
    output->file = output->replaces != NULL ? beside_begin(output->replaces) : -1;
}

static int end_beside(struct output *output) {
    int trouble = output->trouble;
    if (trouble == 0) trouble = finish(output->file, output->is_new ? NULL : &output->was);
    if (close(output->file) != 0 && trouble == 0) trouble = errno;
    if (trouble == 0) return beside_end(output->replaces);
    beside_abandon();
    return trouble;
}

// ---- Outputs of all sorts

// A link to nothing is refused: what to put in its place is not for this program to say. So is a file that may not be
// written to: it could be replaced all the same, by whoever may write to its folder.
static void open_named(struct output *output, const char *name) {
    output->is_new = lstat(name, &output->was) != 0;
    if (output->is_new)
        begin_beside(output, name);
    else if (stat(name, &output->was) != 0)
        output->file = -1;
    else if (!S_ISREG(output->was.st_mode))
        output->file = descriptor_moved(open(name, O_WRONLY | O_CLOEXEC | O_NOCTTY));
    else if (access(name, W_OK) != 0)
        output->file = -1;
    else
        begin_beside(output, name);
}

static void open_output(struct output *output, const char *name) {
    int open = name == NULL ? STDOUT_FILENO : descriptor_named(name);
    if (open < 0)
        open_named(output, name);
    else
        output->file = name == NULL ? open : descriptor_again(open);
    if (output->file < 0) return;
    output->which = output->replaces != NULL && !output->is_new ? which_of(&output->was) : which_open(output->file);
}

static int is_closed_at_end(const struct output *output) { return output->file != STDOUT_FILENO; }

int output_begin(struct output *output, const char *name, enum content content) {
    *output = (struct output){.name = name != NULL ? name : output_standard};
    errno = 0;
    open_output(output, name);
    if (output->file < 0) {
        int trouble = errno;
        free(output->replaces);
        return cannot_write(output->name, trouble);
    }
    if (content == BINARY && isatty(output->file)) {
        output_abandon(output);
        complain(output->name, "binary output does not go to a terminal: -o FILE names a file");
        return STATUS_TROUBLE;
    }
    return STATUS_DONE;
}

int output_add(struct output *output, const void *bytes, size_t len) {
    if (output->trouble == 0) output->trouble = write_all(output->file, bytes, len);
    return output->trouble == 0;
}

static int end_there(struct output *output) {
    int closed = is_closed_at_end(output) ? close(output->file) : 0;
    return output->trouble != 0 ? output->trouble : closed != 0 ? errno : 0;
}

int output_end(struct output *output) {
    int trouble = output->replaces != NULL ? end_beside(output) : end_there(output);
    free(output->replaces);
    return trouble != 0 ? cannot_write(output->name, trouble) : STATUS_DONE;
}

void output_abandon(struct output *output) {
    if (is_closed_at_end(output)) close(output->file);
    if (output->replaces != NULL) beside_abandon();
    free(output->replaces);
}

int output_write(const char *name, const struct text *bytes, enum content content) {
    struct output output;
    int status = output_begin(&output, name, content);
    if (status != STATUS_DONE) return status;
    output_add(&output, bytes->bytes, bytes->len);
    return output_end(&output);
}

// ---- What an output's name means

// What there is to know of an output before it is opened. 0 where there is none yet.
static int look(const char *name, struct stat *is) {
    int open = name == NULL ? STDOUT_FILENO : descriptor_named(name);
    return (open >= 0 ? fstat(open, is) : stat(name, is)) == 0;
}

int output_is_standard(const char *name) {
    struct stat is, standard;
    if (name == NULL) return 1;
    return look(name, &is) && fstat(STDOUT_FILENO, &standard) == 0 && is.st_dev == standard.st_dev &&
           is.st_ino == standard.st_ino;
}

int output_is_input(const char *name, const char *input) {
    struct stat is;
    if (!look(name, &is)) return 0;
    struct which to = which_of(&is), from = strcmp(input, "-") == 0 ? which_open(STDIN_FILENO) : which_named(input);
    if (!which_same(&to, &from)) return 0;
    complain(name != NULL ? name : output_standard, "it is also what is read; nothing is written");
    return 1;
}
