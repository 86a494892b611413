/* Counts checks; their last line is 'N passed, M failed'. */
#ifndef CHECK_H
#define CHECK_H

#include <stdio.h>

static int passed, failed;

static void check(const char *name, int good) {
    if (good) {
        passed++;
    } else {
        failed++;
        printf("failed: %s\n", name);
    }
}

static int checked(void) {
    printf("%d passed, %d failed\n", passed, failed);
    return failed != 0;
}

#endif
