/*
 * Runs a script on a table and writes the new table, as `sed -f SCRIPT TABLE` does: zedrun TABLE SCRIPT. For bench/compare.py.
 * With a number as third argument the run is repeated so often and the best time of one run, in microseconds, goes to standard error.
 */
#define _POSIX_C_SOURCE 200809L
#include "../loader/files.h"
#include "zed.h"

#include <stdio.h>
#include <stdlib.h>
#include <time.h>

static double now(void)
{
    struct timespec t;

    clock_gettime(CLOCK_MONOTONIC, &t);
    return 1e6 * (double)t.tv_sec + 1e-3 * (double)t.tv_nsec;
}

int main(int argc, char **argv)
{
    struct bytes table, script, journal, text;
    size_t work_length, length = 0;
    uint32_t *work;
    zed_answer answer;
    double best = 1e18;

    if (argc < 3 || read_file(argv[1], 65535 * 256 + 1, &table) < 0 || read_file(argv[2], 16385, &script) < 0)
        return 3;
    work_length = 2 * script.length + 64;
    work = malloc(work_length * sizeof *work);
    if (work == NULL || make_bytes(&journal, table.length / 2 * 5 + 65536) < 0)
        return 3;
    for (int i = argc > 3 ? atoi(argv[3]) : 1; i > 0; i--) {
        double start = now(), took;
        zed_run(table.at, table.length, script.at, script.length, UINT32_MAX, work, work_length, journal.at, journal.length, &answer);
        took = now() - start;
        best = took < best ? took : best;
    }
    if (argc > 3)
        fprintf(stderr, "%.1f\n", best);
    if (answer.number != ZED_DONE) {
        fprintf(stderr, "number %llu at %llu\n", (unsigned long long)answer.number, (unsigned long long)answer.place);
        return 1;
    }
    if (make_bytes(&text, (size_t)answer.length) < 0 ||
        zed_new_side(journal.at, (size_t)answer.length, text.at, text.length, &length) != ZED_DONE)
        return 3;
    return fwrite(text.at, 1, length, stdout) == length && fflush(stdout) == 0 ? 0 : 3;
}
