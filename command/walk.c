#include "walk.h"

#include "shown.h"

#include <errno.h>
#include <stdlib.h>
#include <string.h>

void walk_begin(struct walk *walk, const struct options *options, const struct which *output) {
    *walk = (struct walk){.options = options, .output = output, .is_over = options->files_from == NULL};
}

// ---- Folders

// The path as a string.
static const char *path(struct walk *walk) {
    text_add(&walk->path, "", 1);
    walk->path.len--;
    return walk->path.bytes;
}

static struct level *innermost(struct walk *walk) { return &walk->levels[walk->depth - 1]; }

static void unread(struct walk *walk, struct batch *batch, const char *why) {
    complaint(&batch->complaints, path(walk), "cannot be read: %s", why);
    batch->unread++;
}

static int make_level(struct walk *walk) {
    if (walk->depth < walk->deepest) return 1;
    size_t deepest = 2 * walk->deepest + 1;
    struct level *levels = realloc(walk->levels, deepest * sizeof *levels);
    if (levels == NULL) return 0;
    walk->levels = levels;
    walk->deepest = deepest;
    return 1;
}

// Opens the folder of the path, behind those that are entered: NULL, or why not.
static const char *open_level(struct walk *walk) {
    if (!make_level(walk) || (walk->depth > 0 && !folder_keep(&innermost(walk)->folder))) return strerror(ENOMEM);
    struct folder *folder = &walk->levels[walk->depth].folder;
    return folder_open(folder, path(walk), &walk->room, walk->options->recursive, walk->depth > 0);
}

// Back to the path of the innermost folder.
static void cut_path(struct walk *walk) { walk->path.len = walk->depth > 0 ? innermost(walk)->prefix : 0; }

// Into the folder of the path, which is written with or without its last slash.
static void enter(struct walk *walk, struct batch *batch) {
    const char *why = open_level(walk);
    if (why != NULL) {
        unread(walk, batch, why);
        cut_path(walk);
        return;
    }
    size_t name = walk->path.len;
    if (walk->path.bytes[name - 1] != '/') text_put(&walk->path, "/");
    walk->depth++;
    innermost(walk)->name = name;
    innermost(walk)->prefix = walk->path.len;
}

static void say_empty(struct walk *walk, struct batch *batch) {
    complaint(&batch->complaints, path(walk), "there is no *.plan in this folder%s",
              walk->options->recursive ? ", nor below it" : "");
    batch->empty++;
}

static void leave(struct walk *walk, struct batch *batch) {
    struct folder *folder = &innermost(walk)->folder;
    walk->path.len = innermost(walk)->name;
    if (folder->trouble != NULL)
        unread(walk, batch, folder->trouble);
    else if (walk->depth == 1 && walk->found == 0)
        say_empty(walk, batch);
    folder_close(folder);
    walk->depth--;
    cut_path(walk);
}

// A step in a folder: a plan more, or into a folder, or out of it.
static void step_within(struct walk *walk, struct batch *batch) {
    const char *found = folder_next(&innermost(walk)->folder);
    if (found == NULL) {
        leave(walk, batch);
        return;
    }
    size_t len = strlen(found);
    if (found[len - 1] == '/') {
        text_add(&walk->path, found, len - 1);
        enter(walk, batch);
    } else {
        batch_add(batch, FOUND, path(walk), found);
        walk->found++;
    }
}

// ---- Names

static void open_names(struct walk *walk, struct batch *batch) {
    if (!names_open(&walk->names, walk->options->files_from, &batch->complaints)) {
        batch->unread++;
        return;
    }
    struct which text = names_which(&walk->names);
    batch->spoils = which_same(&text, walk->output);
    if (batch->spoils) names_close(&walk->names);
}

// The next line of the text. NULL where there is none, or it is faulty.
static const char *next_line(struct walk *walk, struct batch *batch) {
    if (walk->names.file == NULL) open_names(walk, batch);
    enum line line = walk->names.file != NULL ? names_next(&walk->names, &batch->complaints) : NO_LINE;
    walk->is_over = walk->names.file == NULL;
    batch->unread += (size_t)(line == FAULTY);
    return line == NAME ? walk->names.name : NULL;
}

static void step_to(struct walk *walk, struct batch *batch, const char *name) {
    if (!folder_is(name)) {
        batch_add(batch, NAMED, "", name);
        return;
    }
    walk->found = 0;
    text_put(&walk->path, name);
    enter(walk, batch);
}

static int is_done(const struct walk *walk) {
    return walk->depth == 0 && walk->at == walk->options->count && walk->is_over;
}

static void step(struct walk *walk, struct batch *batch) {
    if (walk->depth > 0) {
        step_within(walk, batch);
        return;
    }
    int is_named = walk->at < walk->options->count;
    const char *name = is_named ? walk->options->names[walk->at++] : next_line(walk, batch);
    if (name != NULL) step_to(walk, batch, name);
}

int walk_fill(void *from, struct batch *batch) {
    struct walk *walk = from;
    while (!is_done(walk) && !batch_is_full(batch)) step(walk, batch);
    return !is_done(walk);
}

void walk_end(struct walk *walk) {
    for (; walk->depth > 0; walk->depth--) folder_close(&innermost(walk)->folder);
    free(walk->levels);
    text_free(&walk->path);
    room_free(&walk->room);
    names_close(&walk->names);
}
