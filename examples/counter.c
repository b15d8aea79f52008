// counter FILE: reads a plan file and says in words what the planner makes of it. tests/c/run shows how it is compiled.
// Exit status: 0 accepted, 1 refused, 2 no file.
#include "yaffledesk.h"

#include <stdio.h>

static void print_overload(uint64_t answer, uint64_t set) {
    printf("overloaded: kind %u needs %lu when these activities work at once:", YAFFLEDESK_OVERLOAD_KIND(answer),
           (unsigned long)YAFFLEDESK_OVERLOAD_NEED(answer));
    for (unsigned i = 1; i <= YAFFLEDESK_MOST_ACTIVITIES; i++)
        if (yaffledesk_has(set, i)) printf(" %u", i);
    printf("\n");
}

// Prints the verdict, and returns its number.
static unsigned print_verdict(const uint8_t *plan, size_t len) {
    uint64_t answer = yaffledesk_verdict(plan, len);
    unsigned long rest = (unsigned long)YAFFLEDESK_REST(answer);
    switch (YAFFLEDESK_NUMBER(answer)) {
    case YAFFLEDESK_DONE:
        printf("accepted: activities %u, kinds %u\n", YAFFLEDESK_ACTIVITIES(answer), YAFFLEDESK_KINDS(answer));
        break;
    case YAFFLEDESK_BAD_LENGTH: printf("no plan file: not 1 to 2,048 records of 24 bytes\n"); break;
    case YAFFLEDESK_BAD_TYPE: printf("record %lu: its type is unknown or out of order, or the crew is missing\n", rest); break;
    case YAFFLEDESK_BAD_FIELD: printf("record %lu: a field is outside its rule\n", rest); break;
    case YAFFLEDESK_MILESTONE_DEMAND: printf("record %lu: an activity that takes no time demands workers\n", rest); break;
    case YAFFLEDESK_BAD_SPARE: printf("record %lu: a spare byte is not zero\n", rest); break;
    case YAFFLEDESK_REPEATED_ARC: printf("record %lu: an arc of this type that an earlier record has already\n", rest); break;
    case YAFFLEDESK_JOB_CIRCLE: printf("the job arcs lead activity %lu back to itself\n", rest); break;
    case YAFFLEDESK_PLAN_CIRCLE: printf("job and extra arcs lead activity %lu back to itself\n", rest); break;
    case YAFFLEDESK_OVERLOADED: print_overload(answer, yaffledesk_set(plan, len)); break;
    default: printf("refused: %u\n", YAFFLEDESK_NUMBER(answer)); // a number that a later planner adds
    }
    return YAFFLEDESK_NUMBER(answer);
}

int main(int argc, char **argv) {
    static uint8_t plan[YAFFLEDESK_MOST_PLAN_BYTES + 1]; // one more, so that a file that is too long is seen to be
    FILE *file = argc == 2 ? fopen(argv[1], "rb") : NULL;
    if (file == NULL) {
        fprintf(stderr, "counter FILE: reads a plan file and says what the planner makes of it\n");
        return 2;
    }
    size_t len = fread(plan, 1, sizeof plan, file);
    fclose(file);
    return print_verdict(plan, len) == YAFFLEDESK_DONE ? 0 : 1;
}
