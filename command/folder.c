#include "folder.h"

#include <errno.h>
#include <fcntl.h>
#include <stdlib.h>
#include <string.h>
#include <sys/stat.h>
#include <unistd.h>

// As a shell takes *.plan: in lower case, and no hidden files.
static int is_plan(const char *name) {
    size_t len = strlen(name);
    return name[0] != '.' && len > 5 && len < LONGEST_FOUND - 1 && strcmp(name + len - 5, ".plan") == 0;
}

int folder_is(const char *name) {
    struct stat is;
    return strcmp(name, "-") != 0 && stat(name, &is) == 0 && S_ISDIR(is.st_mode);
}

// ---- Names that are held

static int compare(const void *a, const void *b) { return strcmp(*(char *const *)a, *(char *const *)b); }

static void sort(struct held *held) { qsort(held->names, held->count, sizeof *held->names, compare); }

static void clear(struct held *held) { held->used = held->count = 0; }

static int has_room(const struct held *held) {
    return held->count < HELD_NAMES && held->used + LONGEST_FOUND <= HELD_BYTES;
}

static void hold(struct held *held, const char *name) {
    held->names[held->count++] = strcpy(held->bytes + held->used, name);
    held->used += strlen(name) + 1;
}

// All memory is taken and written to at once: so it is the same for few names and for many, and where there is too
// little of it, that shows at the beginning. (Not zeros: a compiler makes calloc of that, which writes to nothing.)
static struct held *take_memory(void) {
    struct held *held = malloc(sizeof *held);
    if (held == NULL) return NULL;
    memset(held, 0xFF, sizeof *held);
    clear(held);
    return held;
}

const char *room_take(struct room *room) {
    if (room->held != NULL) return NULL;
    *room = (struct room){.held = take_memory(), .spare = take_memory()};
    if (room->held != NULL && room->spare != NULL) return NULL;
    room_free(room);
    return strerror(ENOMEM);
}

void room_free(struct room *room) {
    free(room->held);
    free(room->spare);
    *room = (struct room){0};
}

// ---- A folder

static DIR *open_entries(const char *name, int is_found) {
    int file = open(name, O_RDONLY | O_DIRECTORY | O_CLOEXEC | (is_found ? O_NOFOLLOW : 0));
    DIR *entries = file >= 0 ? fdopendir(file) : NULL;
    if (file >= 0 && entries == NULL) close(file);
    return entries;
}

const char *folder_open(struct folder *folder, const char *name, struct room *room, int is_deep, int is_found) {
    const char *why = room_take(room);
    if (why != NULL) return why;
    *folder = (struct folder){.entries = open_entries(name, is_found), .room = room, .is_deep = is_deep, .more = 1};
    return folder->entries != NULL ? NULL : strerror(errno);
}

static void close_entries(struct folder *folder) {
    if (folder->entries != NULL) closedir(folder->entries);
    folder->entries = NULL;
}

void folder_close(struct folder *folder) {
    close_entries(folder);
    free(folder->kept);
    *folder = (struct folder){0};
}

// Keeps the lower half of the names that are held: the others are for the next time, and so is whatever comes behind
// them.
static void make_room(struct folder *folder) {
    struct held *full = folder->room->held, *kept = folder->room->spare;
    sort(full);
    clear(kept);
    for (size_t i = 0; i < full->count / 2; i++) hold(kept, full->names[i]);
    strcpy(folder->beyond, full->names[full->count / 2]);
    *folder->room = (struct room){.held = kept, .spare = full};
}

static void take(struct folder *folder, const char *name) {
    if (strcmp(name, folder->last) <= 0) return;
    if (!has_room(folder->room->held)) make_room(folder);
    if (folder->beyond[0] == 0 || strcmp(name, folder->beyond) < 0) hold(folder->room->held, name);
}

// A folder that is not hidden. By a link it is not entered.
static int is_entered(const struct folder *folder, const struct dirent *entry) {
    struct stat is;
    if (!folder->is_deep || entry->d_name[0] == '.' || strlen(entry->d_name) > LONGEST_FOUND - 2) return 0;
    if (entry->d_type != DT_UNKNOWN) return entry->d_type == DT_DIR;
    int seen = fstatat(dirfd(folder->entries), entry->d_name, &is, AT_SYMLINK_NOFOLLOW);
    return seen == 0 && S_ISDIR(is.st_mode);
}

// With the slash behind a folder's name the names are in the order that the names of all plans below have.
static void take_entry(struct folder *folder, const struct dirent *entry) {
    char name[LONGEST_FOUND];
    if (is_entered(folder, entry))
        take(folder, strcat(strcpy(name, entry->d_name), "/"));
    else if (is_plan(entry->d_name))
        take(folder, entry->d_name);
}

static void go_through(struct folder *folder) {
    struct dirent *entry;
    rewinddir(folder->entries);
    do {
        errno = 0;
        entry = readdir(folder->entries);
        if (entry != NULL) take_entry(folder, entry);
    } while (entry != NULL);
    if (errno != 0) folder->trouble = strerror(errno);
}

// Goes through the folder for the names that come next after those that were held.
static void gather(struct folder *folder) {
    clear(folder->room->held);
    folder->beyond[0] = 0;
    go_through(folder);
    sort(folder->room->held);
    free(folder->kept);
    folder->kept = NULL;
    folder->names = folder->room->held->names;
    folder->count = folder->room->held->count;
    folder->at = 0;
    folder->more = folder->beyond[0] != 0 && folder->trouble == NULL;
    if (folder->count > 0) strcpy(folder->last, folder->names[folder->count - 1]);
    if (!folder->more) close_entries(folder);
}

const char *folder_next(struct folder *folder) {
    if (folder->at == folder->count && folder->more) gather(folder);
    return folder->at < folder->count ? folder->names[folder->at++] : NULL;
}

// How many bytes the names take that are still to be given.
static size_t left(const struct folder *folder) {
    size_t bytes = 0;
    for (size_t i = folder->at; i < folder->count; i++) bytes += strlen(folder->names[i]) + 1;
    return bytes;
}

// The names stand behind the places that point at them.
int folder_keep(struct folder *folder) {
    if (folder->kept != NULL) return 1;
    size_t count = folder->count - folder->at;
    char **kept = malloc((count + 1) * sizeof *kept + left(folder));
    if (kept == NULL) return 0;
    char *to = (char *)(kept + count + 1);
    for (size_t i = 0; i < count; i++) {
        kept[i] = strcpy(to, folder->names[folder->at + i]);
        to += strlen(to) + 1;
    }
    folder->kept = folder->names = kept;
    folder->count = count;
    folder->at = 0;
    return 1;
}

size_t folder_size(const char *name) {
    size_t size = 0;
    DIR *entries = opendir(name);
    for (struct dirent *entry; entries != NULL && (entry = readdir(entries)) != NULL;)
        size += (size_t)is_plan(entry->d_name);
    if (entries != NULL) closedir(entries);
    return size;
}
