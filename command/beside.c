#include "beside.h"

#include "descriptor.h"
#include "text.h"

#include <errno.h>
#include <fcntl.h>
#include <signal.h>
#include <stdio.h>
#include <stdlib.h>
#include <string.h>
#include <unistd.h>

static struct text under_way;       // the file's name
static char *volatile to_be_removed; // the same while the file is there; what the handler of a signal reads

static void remove_it(void) {
    char *name = to_be_removed;
    if (name != NULL) unlink(name);
}

// The signal's own action is in place again when this runs (SA_RESETHAND): the program ends by the signal that it got.
static void ended(int signal) {
    int trouble = errno;
    remove_it();
    raise(signal);
    errno = trouble;
}

// The signals that people and systems end programs by. What whoever called the program had ignored stays ignored.
static const int endings[] = {SIGHUP, SIGINT, SIGQUIT, SIGPIPE, SIGTERM, SIGXCPU, SIGXFSZ};
enum { ENDINGS = sizeof endings / sizeof *endings };

static void look_out(int signal) {
    struct sigaction was, action = {.sa_handler = ended, .sa_flags = (int)SA_RESETHAND};
    if (sigaction(signal, NULL, &was) == 0 && was.sa_handler == SIG_DFL) sigaction(signal, &action, NULL);
}

static void look_out_for_all(void) {
    static int done;
    for (size_t i = 0; !done && i < ENDINGS; i++) look_out(endings[i]);
    if (!done) atexit(remove_it);
    done = 1;
}

static void hold_back(sigset_t *before) {
    sigset_t held;
    sigemptyset(&held);
    for (size_t i = 0; i < ENDINGS; i++) sigaddset(&held, endings[i]);
    sigprocmask(SIG_BLOCK, &held, before);
}

// A name in the same folder, for mkostemp. However long the file's own name is, this one is not longer than it may be.
static void name_it(const char *name) {
    const char *slash = strrchr(name, '/');
    text_clear(&under_way);
    text_add(&under_way, name, slash != NULL ? (size_t)(slash + 1 - name) : 0);
    text_put(&under_way, ".yaffledesk.XXXXXX");
    text_add(&under_way, "", 1);
}

static void forget(void) {
    to_be_removed = NULL;
    text_free(&under_way);
}

// Signals wait until it is known what is to be removed.
static int make_it(void) {
    sigset_t before;
    hold_back(&before);
    int file = mkostemp(under_way.bytes, O_CLOEXEC), trouble = errno;
    if (file >= 0) to_be_removed = under_way.bytes;
    sigprocmask(SIG_SETMASK, &before, NULL);
    errno = trouble;
    return file;
}

// What is said on standard error does not go into it, though that be closed.
int beside_begin(const char *name) {
    look_out_for_all();
    name_it(name);
    int file = descriptor_moved(make_it()), trouble = errno;
    if (file < 0) beside_abandon();
    errno = trouble;
    return file;
}

int beside_end(const char *name) {
    if (rename(under_way.bytes, name) != 0) {
        int trouble = errno;
        beside_abandon();
        return trouble;
    }
    forget();
    return 0;
}

void beside_abandon(void) {
    remove_it();
    forget();
}
