// yaffledesk list: the price list.
#include "commands.h"
#include "output.h"
#include "progress.h"
#include "quote.h"
#include "shown.h"
#include "walk.h"

#include <stdio.h>
#include <unistd.h>

enum { NUMBERS = 256 }; // of verdicts: a byte

struct list {
    const struct options *options;
    struct output output;
    struct progress progress;
    size_t numbers[NUMBERS]; // plans by the numbers of their verdicts; 0 is accepted
    size_t unread, empty;    // files and folders that cannot be read; folders without a plan
    int spoils;              // the output is one of the plans
};

static void count(struct list *list, const struct batch *batch) {
    for (size_t i = 0; i < batch->quoted; i++) list->numbers[batch->numbers[i]]++;
    list->unread += batch->unread;
    list->empty += batch->empty;
    list->spoils |= batch->spoils;
}

// Writes what a batch came to: what is wrong with files first, and the lines. Gives whether to go on.
static int take(void *to, const struct batch *batch) {
    struct list *list = to;
    count(list, batch);
    if (batch->complaints.len > 0) progress_clear(&list->progress);
    write_all(STDERR_FILENO, batch->complaints.bytes, batch->complaints.len);
    if (list->spoils || !output_add(&list->output, batch->lines.bytes, batch->lines.len)) return 0;
    progress_add(&list->progress, batch->count);
    return 1;
}

static int heading(struct list *list) {
    struct text line = {0};
    if (list->options->heading) quote_heading(&line, list->options);
    int going = output_add(&list->output, line.bytes, line.len);
    text_free(&line);
    return going;
}

static void list_plans(struct list *list) {
    struct walk walk;
    const struct sink sink = {take, list, &list->output.which};
    walk_begin(&walk, list->options, &list->output.which);
    list->progress = progress_begin(list->options, list->output.file);
    if (heading(list)) work(list->options, (struct source){walk_fill, &walk}, sink);
    progress_clear(&list->progress);
    walk_end(&walk);
}

static size_t quoted(const struct list *list) {
    size_t sum = 0;
    for (size_t number = 0; number < NUMBERS; number++) sum += list->numbers[number];
    return sum;
}

// The numbers add up: whatever could not be read is a plan that has no line.
static void summarize(const struct list *list) {
    size_t all = quoted(list) + list->unread;
    fprintf(stderr, "yaffledesk: %zu plan%s: %zu accepted", all, all == 1 ? "" : "s", list->numbers[0]);
    for (size_t number = 1; number < NUMBERS; number++)
        if (list->numbers[number] > 0) fprintf(stderr, ", %zu refused (%zu)", list->numbers[number], number);
    fprintf(stderr, ", %zu unread\n", list->unread);
}

static int is_trouble(const struct list *list) {
    return list->unread > 0 || (list->empty > 0 && !list->options->allow_empty);
}

static int spoilt(struct list *list) {
    int is_whole = list->output.replaces != NULL;
    output_abandon(&list->output);
    complain(list->output.name, "it is also what is read; nothing %sis written", is_whole ? "" : "more ");
    return STATUS_TROUBLE;
}

// Where there was trouble and there is no line, a name is wrong: an old list is not replaced by none.
static int end_output(struct list *list) {
    if (list->output.replaces == NULL || list->output.trouble != 0 || quoted(list) > 0 || !is_trouble(list))
        return output_end(&list->output);
    output_abandon(&list->output);
    complain(list->output.name, "no plan is listed; nothing is written");
    return STATUS_DONE;
}

int list_run(const struct options *options) {
    struct list list = {.options = options};
    int status = output_begin(&list.output, options->output, TEXT);
    if (status != STATUS_DONE) return status;
    list_plans(&list);
    if (list.spoils) return spoilt(&list);
    status = end_output(&list);
    if (status != STATUS_DONE) return status;
    if (options->summary) summarize(&list);
    return is_trouble(&list) ? STATUS_TROUBLE : list.numbers[0] < quoted(&list) ? STATUS_REFUSED : STATUS_DONE;
}
