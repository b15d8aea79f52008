// faulty NAME: does what a sanitizer is to report: a read beyond what was lent, one after it was given back, a sum that
// overflows, memory that is never given back; or nothing of that. Compiled and run by run.
#include <limits.h>
#include <stdio.h>
#include <stdlib.h>
#include <string.h>

int main(int argc, char **argv) {
    const char *fault = argc > 1 ? argv[1] : "none";
    volatile int size = 4, most = INT_MAX;
    char *volatile bytes = calloc((size_t)size, 1);
    if (strcmp(fault, "beyond") == 0) printf("%d\n", bytes[size]);
    if (strcmp(fault, "overflow") == 0) printf("%d\n", most + size);
    if (strcmp(fault, "leak") == 0) bytes = NULL;
    free(bytes);
    if (strcmp(fault, "after") == 0) printf("%d\n", bytes[0]);
    return 0;
}
