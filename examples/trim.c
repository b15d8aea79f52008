// trim FILE OUT: reads a plan file and writes it to OUT without the extra arcs that it can do without. Says how many records were kept, and which
// extra arcs went, in file order. tests/c/run shows how it is compiled. Exit status: 0 trimmed, 1 refused, 2 a file cannot be read or written; nothing
// is written but for 0.
#include "yaffledesk.h"

#include <stdio.h>
#include <string.h>

enum { RECORD = YAFFLEDESK_RECORD_BYTES, LONGEST_NAME = 4096 };

// A trimmed plan has its records in the given order, and no record is there twice: what is not the next one of it went.
static void print_gone(const uint8_t *plan, size_t records, const uint8_t *left, size_t kept) {
    printf("kept %zu of %zu records\n", kept, records);
    for (const uint8_t *record = plan, *next = left; record < plan + RECORD * records; record += RECORD)
        if (next < left + RECORD * kept && memcmp(record, next, RECORD) == 0)
            next += RECORD;
        else
            printf("extra %u %u went\n", record[1], record[2]);
}

// Beside the file and then in its place, so that whoever reads it finds what was there before or all of the plan.
static int replace(const char *name, const uint8_t *bytes, size_t len) {
    static char beside[LONGEST_NAME];
    if (snprintf(beside, sizeof beside, "%s.part", name) >= (int)sizeof beside) return 0;
    FILE *file = fopen(beside, "wb");
    if (file == NULL) return 0;
    int written = fwrite(bytes, 1, len, file) == len;
    written &= fclose(file) == 0; // what was kept back is written now, which can fail too
    if (written && rename(beside, name) == 0) return 1;
    remove(beside);
    return 0;
}

int main(int argc, char **argv) {
    static uint8_t plan[YAFFLEDESK_MOST_PLAN_BYTES + 1]; // one more, so that a file that is too long is seen to be
    static uint8_t left[YAFFLEDESK_MOST_PLAN_BYTES];
    FILE *file = argc == 3 ? fopen(argv[1], "rb") : NULL;
    if (file == NULL) {
        fprintf(stderr, "trim FILE OUT: reads a plan file and writes it to OUT without the extra arcs that it can do without\n");
        return 2;
    }
    size_t len = fread(plan, 1, sizeof plan, file);
    int failed = ferror(file);
    fclose(file);
    if (failed) {
        fprintf(stderr, "%s: cannot be read\n", argv[1]);
        return 2;
    }
    uint64_t answer = yaffledesk_trim(plan, len, left, sizeof left);
    if (YAFFLEDESK_NUMBER(answer) != YAFFLEDESK_DONE) {
        fprintf(stderr, "refused: %u\n", YAFFLEDESK_NUMBER(answer)); // yaffledesk.h says what the numbers mean
        return 1;
    }
    size_t kept = (size_t)YAFFLEDESK_REST(answer);
    if (!replace(argv[2], left, RECORD * kept)) {
        fprintf(stderr, "%s: cannot be written\n", argv[2]);
        return 2;
    }
    print_gone(plan, len / RECORD, left, kept);
    return 0;
}
