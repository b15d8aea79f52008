#include "names.h"

#include "shown.h"

#include <errno.h>
#include <string.h>

static int is_standard(const struct names *names) { return strcmp(names->from, "-") == 0; }

static void cannot_read(const struct names *names, int trouble, struct text *complaints) {
    complaint(complaints, names->from, "cannot be read: %s", strerror(trouble));
}

int names_open(struct names *names, const char *from, struct text *complaints) {
    *names = (struct names){.from = from};
    names->file = is_standard(names) ? stdin : fopen(from, "re");
    if (names->file == NULL) cannot_read(names, errno, complaints);
    return names->file != NULL;
}

struct which names_which(const struct names *names) { return which_open(fileno(names->file)); }

void names_close(struct names *names) {
    if (names->file != NULL && !is_standard(names)) fclose(names->file);
    names->file = NULL;
}

// What a line has: its bytes, as far as they can be a name's, and how many there are.
struct content {
    size_t len;
    int has_zero, has_end;
};

static struct content read_line(struct names *names) {
    struct content content = {0};
    int byte;
    while ((byte = getc_unlocked(names->file)) != EOF && byte != '\n') {
        if (content.len < PATH_MAX) names->name[content.len] = (char)byte;
        content.len++;
        content.has_zero |= byte == 0;
    }
    content.has_end = byte == '\n';
    names->name[content.len < PATH_MAX ? content.len : PATH_MAX] = 0;
    names->line++;
    return content;
}

static enum line fault(const struct names *names, struct text *complaints, const char *what) {
    text_put(complaints, "yaffledesk: ");
    shown_name(complaints, names->from);
    text_print(complaints, ":%zu: %s\n", names->line, what);
    return FAULTY;
}

static enum line end(struct names *names, struct text *complaints) {
    int trouble = ferror(names->file) ? errno : 0;
    if (trouble != 0) cannot_read(names, trouble, complaints);
    names_close(names);
    return trouble != 0 ? FAULTY : NO_LINE;
}

enum line names_next(struct names *names, struct text *complaints) {
    struct content content;
    do {
        content = read_line(names);
        if (!content.has_end && (content.len == 0 || ferror(names->file))) return end(names, complaints);
    } while (content.len == 0);
    if (content.has_zero) return fault(names, complaints, "a name has no byte 0");
    if (content.len > PATH_MAX) return fault(names, complaints, "a name is at most 4,096 bytes long"); // PATH_MAX
    if (is_standard(names) && strcmp(names->name, "-") == 0)
        return fault(names, complaints, "the names are read from standard input, so it is no plan");
    return NAME;
}
