#include "crew_text.h"

#include "input.h"
#include "scale.h"
#include "shown.h"

#include <errno.h>
#include <limits.h>
#include <stdlib.h>
#include <string.h>

#define A_LINE "a line is three numbers, an activity, its start and its duration, the last two at most 4,294,967,295"

enum { MOST_FAULTS = 20 }; // so many faulty lines are said: a file that is no crew's has more

// A text while its lines are gone through.
struct reading {
    struct crew_text *text;
    size_t line, faults;
};

__attribute__((format(printf, 2, 3))) static void fault(struct reading *reading, const char *format, ...) {
    struct text what = {0};
    va_list values;
    if (++reading->faults > MOST_FAULTS) return;
    va_start(values, format);
    text_print_list(&what, format, values);
    va_end(values);
    complain_at(reading->text->name, reading->line, "%.*s", (int)what.len, what.bytes);
    text_free(&what);
}

// The next number of a line, from 0 to the most; moves on behind it. 0 where there is none.
static int next_number(char **at, unsigned long most, unsigned long *number) {
    char *from = *at + strspn(*at, " \t");
    if (*from < '0' || *from > '9') return 0;
    errno = 0;
    *number = strtoul(from, at, 10);
    return errno == 0 && *number <= most && strchr(" \t", **at) != NULL;
}

static int is_blank(const char *words) { return words[strspn(words, " \t")] == 0; }

// Three numbers, and nothing behind them.
static int read_numbers(char *words, unsigned long *activity, unsigned long *start, unsigned long *duration) {
    return next_number(&words, ULONG_MAX, activity) && next_number(&words, UINT32_MAX, start) &&
           next_number(&words, UINT32_MAX, duration) && is_blank(words);
}

static void read_words(struct reading *reading, char *words) {
    struct crew_text *text = reading->text;
    unsigned long activity, start, duration;
    if (!read_numbers(words, &activity, &start, &duration))
        fault(reading, A_LINE);
    else if (activity < 1 || activity > YAFFLEDESK_MOST_ACTIVITIES)
        fault(reading, "activities are 1 to %d", YAFFLEDESK_MOST_ACTIVITIES);
    else if (text->lines[activity - 1] != 0)
        fault(reading, "this activity has a line already");
    else {
        text->lines[activity - 1] = reading->line;
        text->crew.starts[activity - 1] = (uint32_t)start;
        text->crew.durations[activity - 1] = (uint32_t)duration;
    }
}

// A line of so many bytes, behind which a 0 stands. Lines can end as those of DOS do. A 0 within is of no text, and
// would hide what follows it.
static void read_line(struct reading *reading, char *line, size_t len) {
    if (strlen(line) != len) {
        fault(reading, A_LINE);
        return;
    }
    size_t words = strcspn(line, "#");
    if (words > 0 && line[words - 1] == '\r') words--;
    line[words] = 0;
    if (words > MOST_LINE_BYTES)
        fault(reading, "a line has at most %d bytes before its comment", MOST_LINE_BYTES);
    else if (!is_blank(line))
        read_words(reading, line);
}

// All lines of a text, behind which a 0 stands. The first can begin with the mark that some editors put there.
static void read_lines(struct reading *reading, char *at, char *end) {
    if (strncmp(at, "\xEF\xBB\xBF", 3) == 0) at += 3;
    while (at < end) {
        char *line = at, *newline = memchr(at, '\n', (size_t)(end - at));
        size_t len = (size_t)((newline != NULL ? newline : end) - line);
        line[len] = 0;
        reading->line++;
        read_line(reading, line, len);
        at = line + len + 1;
    }
}

// The activities named are to be 1 to some count; whether it is the plan's is for the library to say.
// Where one is left out, the greatest is named with it: a number that was mistyped is most often that one.
static void count_activities(struct reading *reading) {
    struct crew_text *text = reading->text;
    size_t greatest = 0, missing = 0;
    for (size_t i = 1; i <= YAFFLEDESK_MOST_ACTIVITIES; i++)
        if (text->lines[i - 1] != 0) {
            text->crew.count++;
            greatest = i;
        } else if (missing == 0)
            missing = i;
    if (greatest == text->crew.count || reading->faults > 0) return;
    reading->line = text->lines[greatest - 1];
    fault(reading, "activity %zu has a line and activity %zu has none", greatest, missing);
}

// Of a text that is too large nothing is judged; the line that goes beyond the bound is named.
static void refuse_large(struct reading *reading, const char *bytes) {
    reading->line = 1;
    for (size_t i = 0; i < MOST_CREW_BYTES; i++) reading->line += bytes[i] == '\n';
    fault(reading, "a crew's text has at most %s bytes, and here it has more", scale_grouped(MOST_CREW_BYTES).digits);
}

static void read_text(struct reading *reading, char *bytes, size_t len) {
    if (len > MOST_CREW_BYTES) {
        refuse_large(reading, bytes);
        return;
    }
    bytes[len] = 0;
    read_lines(reading, bytes, bytes + len);
    count_activities(reading);
}

int crew_text_read(struct crew_text *text, const char *name) {
    static char bytes[MOST_CREW_BYTES + 1]; // so that one that is too large is seen to be, and for the 0 behind others
    struct reading reading = {.text = text};
    size_t len;
    *text = (struct crew_text){.name = name};
    const char *why = input_read(name, bytes, sizeof bytes, &len);
    if (why != NULL) {
        complain(name, "cannot be read: %s", why);
        return 0;
    }
    read_text(&reading, bytes, len);
    if (reading.faults > MOST_FAULTS) complain(name, "%zu faulty lines in all", reading.faults);
    return reading.faults == 0;
}
