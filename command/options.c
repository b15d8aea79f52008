#include "options.h"

#include "shown.h"
#include "status.h"
#include "yaffledesk.h"

#include <getopt.h>
#include <stdarg.h>
#include <stdio.h>
#include <stdlib.h>
#include <string.h>

// Options without a letter of their own have one all the same, by which a command says that it takes them.
static const struct option known[] = {
    {"help", no_argument, NULL, 'h'},
    {"version", no_argument, NULL, 'V'},
    {"kind", required_argument, NULL, 'k'},
    {"page", required_argument, NULL, 'p'},
    {"output", required_argument, NULL, 'o'},
    {"jobs", required_argument, NULL, 'j'},
    {"csv", no_argument, NULL, 'C'},
    {"json", no_argument, NULL, 'J'},
    {"heading", no_argument, NULL, 'H'},
    {"binary", no_argument, NULL, 'B'},
    {"width", required_argument, NULL, 'W'},
    {"progress", no_argument, NULL, 'P'},
    {"quiet", no_argument, NULL, 'Q'},
    {"recursive", no_argument, NULL, 'r'},
    {"files-from", required_argument, NULL, 'F'},
    {"summary", no_argument, NULL, 'S'},
    {"allow-empty", no_argument, NULL, 'E'},
    {NULL, 0, NULL, 0}
};

enum { MOST_JOBS = 256, USUAL_WIDTH = 32, MOST_WIDTH = 4096 };

// The words that are wrong can be names of files, and are shown as those are.
__attribute__((format(printf, 1, 2), noreturn)) static void misused(const char *format, ...) {
    struct text said = {0}, shown = {0};
    va_list values;
    va_start(values, format);
    text_print_list(&said, format, values);
    va_end(values);
    text_add(&said, "", 1);
    shown_name(&shown, said.bytes);
    fprintf(stderr, "yaffledesk: %.*s\nyaffledesk --help says how it is used.\n", (int)shown.len, shown.bytes);
    exit(STATUS_TROUBLE);
}

// What was printed may not have arrived: then the command has not done what it was asked to.
__attribute__((noreturn)) static void printed(void) {
    if (fflush(stdout) != 0 || ferror(stdout)) {
        perror("yaffledesk: standard output: cannot be written");
        exit(STATUS_TROUBLE);
    }
    exit(STATUS_DONE);
}

static const char *long_name(int letter) {
    const struct option *option = known;
    while (option->val != letter) option++;
    return option->name;
}

// Digits alone: no sign, no blank, nothing behind them.
static uint64_t number(int letter, const char *word, uint64_t least, uint64_t most) {
    uint64_t value = 0;
    const char *digit = word;
    for (; *digit >= '0' && *digit <= '9'; digit++) {
        unsigned more = (unsigned)(*digit - '0');
        if (more > most || value > (most - more) / 10) break;
        value = 10 * value + more;
    }
    if (*digit != 0 || digit == word || value < least)
        misused("--%s takes a number from %llu to %llu, not '%s'", long_name(letter), (unsigned long long)least,
                (unsigned long long)most, word);
    return value;
}

static void set(struct options *options, int letter, const char *word) {
    switch (letter) {
    case 'k':
        options->has_kind = 1;
        options->kind = number(letter, word, 1, YAFFLEDESK_MOST_KINDS);
        break;
    case 'p': options->has_page = 1, options->page = number(letter, word, 0, UINT64_MAX); break;
    case 'o': options->output = strcmp(word, "-") == 0 ? NULL : word; break;
    case 'j': options->jobs = (unsigned)number(letter, word, 1, MOST_JOBS); break;
    case 'C': options->format = CSV; break;
    case 'J': options->format = JSON; break;
    case 'H': options->heading = 1; break;
    case 'B': options->binary = 1; break;
    case 'E': options->allow_empty = 1; break;
    case 'F': options->files_from = word; break;
    case 'S': options->summary = 1; break;
    case 'r': options->recursive = 1; break;
    case 'P': options->progress = SHOWN; break;
    case 'Q': options->progress = QUIET; break;
    case 'W': options->width = (size_t)number(letter, word, 1, MOST_WIDTH); break;
    }
}

static const struct command *named(const struct command *commands, const char *name) {
    for (; commands->name != NULL; commands++)
        if (strcmp(commands->name, name) == 0) return commands;
    misused("there is no command '%s'", name);
}

static int is_known(int letter) {
    const struct option *option = known;
    while (option->name != NULL && option->val != letter) option++;
    return option->name != NULL;
}

// The word that getopt stopped at, for a mistake that it finds: a letter in a word of several, or a long name. It is not behind a word of several letters yet
// when it finds an unknown one in it.
static const char *wrong_word(char **argv) {
    static char word[] = "-?";
    if (optopt != 0 && (argv[optind - 1][1] != '-' || !is_known(optopt))) {
        word[1] = (char)optopt;
        return word;
    }
    return argv[optind - 1];
}

// How many options a word "--abc", with or without "=value", can be short for; their names are added, each behind a
// comma. The whole name of one is that one alone, which getopt has found then.
static size_t could_be(struct text *names, const char *word) {
    size_t count = 0, len = strcspn(word, "=");
    for (const struct option *option = known; len > 2 && option->name != NULL; option++) {
        if (strncmp(word + 2, option->name, len - 2) != 0) continue;
        text_print(names, ", --%s", option->name);
        count++;
    }
    return count;
}

// A word that getopt does not know, or that it could take for several options.
__attribute__((noreturn)) static void unknown(char **argv) {
    struct text names = {0};
    const char *word = wrong_word(argv);
    if (word[1] == '-' && could_be(&names, word) > 1)
        misused("%.*s is ambiguous: it could be %.*s", (int)strcspn(word, "="), word, (int)names.len - 2,
                names.bytes + 2);
    misused("%s is no option", word);
}

static int is_standard(const char *name) { return strcmp(name, "-") == 0; }

// Names and a plan cannot both be read from standard input.
static void check_names(const struct options *options) {
    for (size_t i = 0; options->files_from != NULL && is_standard(options->files_from) && i < options->count; i++)
        if (is_standard(options->names[i])) misused("list: the names and a plan cannot both be standard input");
}

static void check(const struct options *options) {
    const struct command *command = options->command;
    if (options->format == JSON && options->heading) misused("--heading: lines of JSON have no heading");
    if (options->count < command->fewest && options->files_from == NULL)
        misused("%s: the name of a %s is missing", command->name, options->count == 1 ? "crew's file" : "plan");
    if (options->count > command->most)
        misused("%s: '%s' is one name too many", command->name, options->names[command->most]);
    if (command->most == 2 && is_standard(options->names[0]) && is_standard(options->names[1]))
        misused("%s: the plan and the crew's file cannot both be standard input", command->name);
    check_names(options);
}

// What stands for itself: it is printed, and nothing else is done.
static void print_if_asked(int letter) {
    if (letter == 'h') fputs(help_text, stdout), printed();
    if (letter == 'V') puts("yaffledesk " YAFFLEDESK_VERSION), printed();
}

static void read_options(struct options *options, int argc, char **argv) {
    opterr = 0; // what is wrong is said here
    for (int letter; (letter = getopt_long(argc, argv, ":hk:p:o:j:r", known, NULL)) != -1;) {
        print_if_asked(letter);
        if (letter == ':') misused("%s takes a value", wrong_word(argv));
        if (letter == '?') unknown(argv);
        if (strchr(options->command->letters, letter) == NULL) misused("%s takes no option --%s", options->command->name, long_name(letter));
        set(options, letter, optarg);
    }
    options->names = argv + optind;
    options->count = (size_t)(argc - optind);
}

void options_read(struct options *options, int argc, char **argv, const struct command *commands) {
    *options = (struct options){.jobs = 1, .width = USUAL_WIDTH};
    if (argc < 2) misused("a command is missing");
    if (strcmp(argv[1], "--help") == 0 || strcmp(argv[1], "-h") == 0) print_if_asked('h');
    if (strcmp(argv[1], "--version") == 0) print_if_asked('V');
    options->command = named(commands, argv[1]);
    read_options(options, argc - 1, argv + 1);
    check(options);
}
