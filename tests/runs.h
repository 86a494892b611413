/* Runs with buffers that are lent, and bytes after them that must stay. */
#ifndef RUNS_H
#define RUNS_H

#include <stdint.h>
#include <stdlib.h>
#include <string.h>

#include "../include/zed.h"

enum { FILL = 7, GUARD = 16 };

static void *lend(size_t bytes) {
    uint8_t *at = malloc(bytes + GUARD);
    if (at == NULL) exit(2);
    memset(at, FILL, bytes + GUARD);
    return at;
}

static int all_are(const uint8_t *at, size_t n, uint8_t b) {
    for (size_t i = 0; i < n; i++) {
        if (at[i] != b) return 0;
    }
    return 1;
}

/* A run with the buffers that it was lent; the bytes after each buffer must stay. */
struct outcome {
    zed_answer answer;
    uint8_t *journal;
    int kept; /* past the buffers nothing is touched; past the journal all is 0, or untouched where the run was refused */
};

static struct outcome run_bytes(const char *table, size_t table_length, const char *script, size_t script_length, uint32_t budget, size_t work_length,
                                size_t room) {
    struct outcome o;
    uint32_t *work = lend(work_length * sizeof *work);
    uint64_t number;

    memset(&o, 0, sizeof o);
    o.journal = lend(room);
    number = zed_run((const uint8_t *)table, table_length, (const uint8_t *)script, script_length, budget, work, work_length, o.journal, room,
                     &o.answer);
    o.kept = number == o.answer.number && all_are((uint8_t *)(work + work_length), GUARD, FILL) && all_are(o.journal + room, GUARD, FILL) &&
             o.answer.length <= room;
    if (o.kept) {
        o.kept = all_are(o.journal + o.answer.length, room - o.answer.length, zed_is_refusal(number) ? FILL : 0);
    }
    free(work);
    return o;
}

static struct outcome run(const char *table, const char *script, uint32_t budget, size_t room) {
    return run_bytes(table, strlen(table), script, strlen(script), budget, 2 * strlen(script) + 64, room);
}

#endif
