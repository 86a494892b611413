/* Calls the readers of journals as a loader does, and compares what they answer and write. */
#include <stdio.h>
#include <stdlib.h>
#include <string.h>

#include "../include/zed.h"
#include "check.h"

typedef uint32_t reader(const uint8_t *, size_t, uint8_t *, size_t, size_t *);

enum { SIZE = 512, FILL = 7 };

/* Runs a reader with a destination of `room` bytes and wants the number and the bytes given; every other byte stays as it was. */
static void run(const char *name, reader *read, const char *journal, size_t length, size_t room, uint32_t number, const char *want) {
    uint8_t dest[SIZE];
    size_t written = 99, size = strlen(want), i;
    int good = 1;
    memset(dest, FILL, sizeof dest);
    uint32_t got = read((const uint8_t *)journal, length, dest, room, &written);
    good = got == number && written == size && memcmp(dest, want, size) == 0;
    for (i = size; i < SIZE; i++) {
        if (dest[i] != FILL) good = 0;
    }
    check(name, good);
}

/* Accepted at just the length, and with room to spare; refused one byte short. */
static void fits(const char *name, reader *read, const char *journal, const char *want) {
    size_t length = strlen(journal), size = strlen(want);
    run(name, read, journal, length, size, ZED_DONE, want);
    run(name, read, journal, length, SIZE, ZED_DONE, want);
    if (size > 0) run(name, read, journal, length, size - 1, ZED_DESTINATION_SHORT, "");
}

/* No journal: refused by each reader, however long the destination is. */
static void malformed(const char *name, const char *journal, size_t length) {
    run(name, zed_old_side, journal, length, SIZE, ZED_NOT_A_JOURNAL, "");
    run(name, zed_new_side, journal, length, SIZE, ZED_NOT_A_JOURNAL, "");
    run(name, zed_listing, journal, length, SIZE, ZED_NOT_A_JOURNAL, "");
    run(name, zed_listing, journal, length, 0, ZED_NOT_A_JOURNAL, "");
}

/* A journal of `count` records `mark` with empty lines. */
static char *many(const char *mark, size_t count) {
    char *journal = malloc(3 * count);
    size_t i;
    if (journal == NULL) exit(2);
    for (i = 0; i < count; i++) {
        journal[3 * i] = mark[0];
        journal[3 * i + 1] = mark[1];
        journal[3 * i + 2] = '\n';
    }
    return journal;
}

static void limits(void) {
    char line[300];
    uint8_t *dest = malloc(1 << 20);
    size_t written = 99;
    char *journal = many("==", 65536);
    if (dest == NULL) exit(2);
    memset(dest, FILL, 1 << 20);
    check("65,535 old lines", zed_old_side((const uint8_t *)journal, 3 * 65535, dest, 1 << 20, &written) == ZED_DONE && written == 65535 && dest[65535] == FILL);
    check("number 65535 in the listing", zed_listing((const uint8_t *)journal, 3 * 65535, dest, 1 << 20, &written) == ZED_DONE && written == 8 * 65535 && memcmp(dest + 8 * 65534, "65535  \n", 8) == 0);
    memset(dest, FILL, 1 << 20);
    check("65,536 old lines", zed_old_side((const uint8_t *)journal, 3 * 65536, dest, 1 << 20, &written) == ZED_NOT_A_JOURNAL && written == 0 && dest[0] == FILL);
    free(journal);
    journal = many("++", 65536);
    check("65,536 inserted lines", zed_new_side((const uint8_t *)journal, 3 * 65536, dest, 1 << 20, &written) == ZED_DONE && written == 65536);
    free(journal);
    free(dest);

    memset(line, 'x', sizeof line);
    memcpy(line, "==", 2);
    line[2 + 255] = '\n';
    line[2 + 256] = 0;
    fits("a line of 255 bytes", zed_old_side, line, line + 2);
    line[2 + 255] = 'x';
    line[2 + 256] = '\n';
    malformed("a line of 256 bytes", line, 2 + 257);
}

int main(void) {
    const char *journal = "==a\n--b\n++c\n<>d\ne\n";
    fits("old side", zed_old_side, journal, "a\nb\nd\n");
    fits("new side", zed_new_side, journal, "a\nc\ne\n");
    fits("listing", zed_listing, journal, "    1  a\n ****  c\n    3-+e\n");
    fits("a deleted line before an inserted one", zed_listing, "--a\n++b\n==c\n", " ****  b\n    2- c\n");
    fits("empty journal, old side", zed_old_side, "", "");
    fits("empty journal, new side", zed_new_side, "", "");
    fits("empty journal, listing", zed_listing, "", "");
    fits("all deleted", zed_new_side, "--a\n--b\n", "");
    fits("empty lines", zed_new_side, "==\n++\n<>\nx\n", "\n\nx\n");

    malformed("no mark", "a\n", 2);
    malformed("a wrong mark", "=-a\n", 4);
    malformed("a mark cut short", "=", 1);
    malformed("no LF", "==a", 3);
    malformed("a line of LF alone", "\n", 1);
    malformed("a changed record with equal lines", "<>a\na\n", 6);
    malformed("a changed record without its new line", "<>a\n", 4);
    malformed("a byte below 32", "==\x1f\n", 4);
    malformed("byte 127", "==\x7f\n", 4);
    malformed("a zero byte after the journal", "==a\n", 5);
    limits();

    return checked();
}
