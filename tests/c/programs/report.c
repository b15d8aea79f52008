// Prints the report of the plan on standard input by the C function alone, so that tests/c/run can hold it to the stored reports.
#include "yaffledesk.h"

#include <stdio.h>

int main(void) {
    static uint8_t plan[YAFFLEDESK_MOST_PLAN_BYTES + 1], text[YAFFLEDESK_REPORT_BYTES];
    const uint64_t answer = yaffledesk_report(plan, fread(plan, 1, sizeof plan, stdin), text, sizeof text);
    const size_t length = (size_t)YAFFLEDESK_REST(answer);
    return YAFFLEDESK_NUMBER(answer) == YAFFLEDESK_DONE && fwrite(text, 1, length, stdout) == length ? 0 : 1;
}
