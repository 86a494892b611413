/* What the benchmarks in C share: bytes that are lent, processor time, and the best time of a run. To be included first. */
#ifndef TIMING_H
#define TIMING_H

#define _POSIX_C_SOURCE 199309L
#include <stdint.h>
#include <stdio.h>
#include <stdlib.h>
#include <string.h>
#include <time.h>

#include "../include/zed.h"

enum { FEW = 6553, MANY = 65535 };

struct bytes {
    uint8_t *at;
    size_t length;
};

static inline struct bytes lend(size_t length)
{
    struct bytes b = { malloc(length), length };

    if (b.at == NULL) exit(1);
    return b;
}

/* Processor time in milliseconds. */
static inline double now(void)
{
    struct timespec t;

    clock_gettime(CLOCK_PROCESS_CPUTIME_ID, &t);
    return (double)t.tv_sec * 1e3 + (double)t.tv_nsec / 1e6;
}

static inline uint64_t run(struct bytes table, const char *script, struct bytes journal)
{
    static uint32_t work[2048];
    zed_answer answer;

    return zed_run(table.at, table.length, (const uint8_t *)script, strlen(script), UINT32_MAX, work, sizeof work / sizeof work[0], journal.at, journal.length, &answer);
}

/* Whether the library takes the script, on a table of one line. */
static inline int knows(const char *script)
{
    uint8_t line[] = "a\n", room[8];
    struct bytes table = { line, 2 }, journal = { room, sizeof room };

    return run(table, script, journal) == ZED_DONE;
}

/* The best time of so many runs, each of which must come to this number. */
static inline double best_run(struct bytes table, const char *script, struct bytes journal, uint64_t wanted, int times)
{
    double least = 1e9;

    for (int i = 0; i < times; i++) {
        double start = now(), taken;
        uint64_t number = run(table, script, journal);

        taken = now() - start;
        if (number != wanted) printf("%s: number %llu\n", script, (unsigned long long)number), exit(1);
        if (taken < least) least = taken;
    }
    return least;
}

#endif
