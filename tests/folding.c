/*
 * Small letters taken as capitals: % and U for every byte that a line can hold, and the place where a string is found, with and without U, in lines of
 * every length up to 40, from every place on, and of 255 bytes, from places 0 to 9 on. What must come out is worked out here byte by byte.
 */
#include <stdint.h>
#include <stdio.h>
#include <string.h>

#include "../include/zed.h"
#include "check.h"

enum { FIRST = 32, LAST = 126, LONGEST = 255, SHORT = 40, NOWHERE = 256 };

static const char smalls[] = "abcdefghijklmnopqrstuvwxyz";
static const char capitals[] = "ABCDEFGHIJKLMNOPQRSTUVWXYZ";

/* The letter of the other list that stands where b does in the one. */
static char swapped(const char *one, const char *other, char b) {
    const char *at = strchr(one, b);
    return at == NULL ? b : other[at - one];
}

static char upper(char b) {
    return swapped(smalls, capitals, b);
}

static char lower(char b) {
    return swapped(capitals, smalls, b);
}

/* The run of a script on a table of one line: its number, and the new side without its line feed. */
static uint64_t edit(const char *line, const char *script, char *out) {
    static uint32_t work[1024];
    static uint8_t journal[4096], side[4096];
    char table[LONGEST + 2];
    zed_answer answer;
    size_t n = strlen(line), length = 0;

    memcpy(table, line, n);
    table[n] = '\n';
    zed_run((const uint8_t *)table, n + 1, (const uint8_t *)script, strlen(script), UINT32_MAX, work, 1024, journal, sizeof journal, &answer);
    out[0] = '\0';
    if (zed_new_side(journal, (size_t)answer.length, side, sizeof side, &length) != ZED_DONE || length > LONGEST + 1) return ZED_NOT_A_JOURNAL;
    if (length > 0) memcpy(out, side, length - 1);
    out[length > 0 ? length - 1 : 0] = '\0';
    return answer.number;
}

/* % and $ on a line of one byte. */
static void cased(char b) {
    char line[2] = {b, '\0'}, out[LONGEST + 2], name[32];
    int good = edit(line, "%\n", out) == ZED_DONE && strlen(out) == 1 && out[0] == upper(b);

    good = good && edit(line, "$\n", out) == ZED_DONE && strlen(out) == 1 && out[0] == lower(b);
    snprintf(name, sizeof name, "%% and $ on byte %d", b);
    check(name, good);
}

/* The string of one byte b against each line of one byte: U takes both as capitals, without it they are compared as they are. */
static void compared(char b) {
    char line[2] = {'\0', '\0'}, out[LONGEST + 2], folded[32], plain[32], name[32];
    char d = b == '/' ? '.' : '/';
    int good = 1;

    snprintf(folded, sizeof folded, "IF U%c%c%c (E//!/)\n", d, b, d);
    snprintf(plain, sizeof plain, "IF %c%c%c (E//!/)\n", d, b, d);
    for (int c = FIRST; c <= LAST; c++) {
        line[0] = (char)c;
        good = good && edit(line, folded, out) == ZED_DONE && strlen(out) == (upper(b) == upper(line[0]) ? 2 : 1);
        good = good && edit(line, plain, out) == ZED_DONE && strlen(out) == (b == line[0] ? 2 : 1);
    }
    snprintf(name, sizeof name, "U and byte %d", b);
    check(name, good);
}

/* The first place from p on where the string stands. */
static size_t found(const char *line, size_t p, const char *string, int folds) {
    size_t n = strlen(line), m = strlen(string);

    for (size_t i = p; i + m <= n; i++) {
        size_t k = 0;
        while (k < m && (folds ? upper(line[i + k]) == upper(string[k]) : line[i + k] == string[k])) k++;
        if (k == m) return i;
    }
    return NOWHERE;
}

/* From place p on, ! comes for the string where it is found; 24 where it is not. */
static int exchanged(const char *line, size_t p, const char *string, int folds) {
    char script[64], out[LONGEST + 2], wanted[LONGEST + 2];
    size_t i = found(line, p, string, folds), m = strlen(string);
    uint64_t number;

    snprintf(script, sizeof script, "%d >; E%s/%s/!/\n", (int)p, folds ? " U" : "", string);
    number = edit(line, script, out);
    if (i == NOWHERE) return number == ZED_NO_MATCH && strcmp(out, line) == 0;
    memcpy(wanted, line, i);
    wanted[i] = '!';
    strcpy(wanted + i + 1, line + i + m);
    return number == ZED_DONE && strcmp(out, wanted) == 0;
}

/* A line of n bytes that are not the letter q, some of them 32 away from it, with q at place i and Q at place j. */
static void fill(char *line, size_t n, size_t i, size_t j) {
    for (size_t k = 0; k < n; k++) line[k] = "1pPrR"[k % 5];
    if (i < n) line[i] = 'q';
    if (j < n) line[j] = 'Q';
    line[n] = '\0';
}

/* A line of n bytes with the letter at each place and at none, looked for from each place up to `last`. */
static void placed(size_t n, size_t last) {
    char line[LONGEST + 1], name[48];
    int good = 1;

    for (size_t i = 0; i <= n; i++) {
        for (size_t p = 0; p <= last; p++) {
            fill(line, n, i, n);
            good = good && exchanged(line, p, "Q", 1) && exchanged(line, p, "q", 0) && exchanged(line, p, "q1", 1);
            fill(line, n, i, i + 1);
            good = good && exchanged(line, p, "qQ", 1) && exchanged(line, p, "qQ", 0);
        }
    }
    snprintf(name, sizeof name, "each place in a line of %d bytes", (int)n);
    check(name, good);
}

int main(void) {
    for (int b = FIRST; b <= LAST; b++) cased((char)b);
    for (int b = FIRST; b <= LAST; b++) compared((char)b);
    for (size_t n = 0; n <= SHORT; n++) placed(n, n);
    placed(LONGEST, 9);
    return checked();
}
