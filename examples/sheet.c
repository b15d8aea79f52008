// sheet FILE KIND [PAGE]: reads a plan file and prints a page of the crew sheet of a kind, page 1 where none is named. tests/c/run shows how it is
// compiled. Exit status: 0 printed, 1 refused, 2 no file.
#include "yaffledesk.h"

#include <stdio.h>
#include <stdlib.h>

int main(int argc, char **argv) {
    static uint8_t plan[YAFFLEDESK_MOST_PLAN_BYTES + 1]; // one more, so that a file that is too long is seen to be
    static uint8_t page[YAFFLEDESK_SHEET_BYTES];
    FILE *file = argc == 3 || argc == 4 ? fopen(argv[1], "rb") : NULL;
    if (file == NULL) {
        fprintf(stderr, "sheet FILE KIND [PAGE]: reads a plan file and prints a page of the crew sheet of a kind\n");
        return 2;
    }
    size_t len = fread(plan, 1, sizeof plan, file);
    fclose(file);
    uint64_t kind = strtoull(argv[2], NULL, 10), number = argc == 4 ? strtoull(argv[3], NULL, 10) : 1;
    uint64_t answer = yaffledesk_sheet(plan, len, kind, number, page, sizeof page);
    switch (YAFFLEDESK_NUMBER(answer)) {
    case YAFFLEDESK_DONE: fwrite(page, 1, sizeof page, stdout); return 0;
    case YAFFLEDESK_NO_PAGE: fprintf(stderr, "no such page: the sheet has pages 1 to %lu\n", (unsigned long)YAFFLEDESK_REST(answer)); return 1;
    default: fprintf(stderr, "refused: %u\n", YAFFLEDESK_NUMBER(answer)); return 1; // yaffledesk.h says what the numbers mean
    }
}
