/*
 * Replaced lines side by side (document 02, wish 6): in each stretch without kept or changed records the `--` come first, in old order, then the `++`, in new order.
 * `IC; D` leaves `++a` before `--a` for each line a, so what the run made and what must come out differ in every stretch, and no two lines are alike.
 */
#include <stdint.h>
#include <stdio.h>
#include <stdlib.h>
#include <string.h>

#include "../include/zed.h"
#include "check.h"
#include "runs.h"
#include "texts.h"

enum { LONGEST = 255, MOST_LINES = 65535 };

/* Line i of a table: its number, as far as it goes into so many bytes, and filling. */
static void add_line(text *t, size_t i, size_t length) {
    char line[LONGEST + 12];
    int digits = snprintf(line, sizeof line, "%zu", i);

    memset(line + digits, 'x', LONGEST);
    line[length] = '\n';
    add(t, line, length + 1);
}

/* How long the lines are: all alike, or from 0 to the longest in turn. */
static size_t length_of(size_t i, size_t length) {
    return length <= LONGEST ? length : i * 37 % (LONGEST + 1);
}

static text table_of(size_t lines, size_t length) {
    text t = {NULL, 0, 0};

    say(&t, "");
    for (size_t i = 1; i <= lines; i++) add_line(&t, i, length_of(i, length));
    return t;
}

static void add_records(text *t, const char *mark, size_t from, size_t to, size_t length) {
    for (size_t i = from; i <= to; i++) {
        say(t, mark);
        add_line(t, i, length_of(i, length));
    }
}

/* The run has this number and journal; its old side is the table. */
static void wants(const char *name, struct outcome o, uint64_t number, text table, text journal) {
    uint8_t *side = lend(table.length);
    size_t length = 0;
    int good = o.kept && o.answer.number == number && o.answer.length == journal.length && memcmp(o.journal, journal.at, journal.length) == 0;

    if (good)
        good = zed_old_side(o.journal, journal.length, side, table.length, &length) == ZED_DONE && length == table.length && memcmp(side, table.at, length) == 0;
    check(name, good);
    free(side), free(o.journal);
}

/* Of every `many` + 1 lines the last is kept, the others are replaced by their copies. */
static void rows_of(const char *name, size_t rows, size_t many, size_t length) {
    text table = table_of(rows * (many + 1), length), journal = {NULL, 0, 0};
    char script[64];

    snprintf(script, sizeof script, "RPT (%zu(IC; D); N; IFEOF AGP)\n", many);
    for (size_t row = 0; row < rows; row++) {
        size_t first = row * (many + 1) + 1;
        add_records(&journal, "--", first, first + many - 1, length);
        add_records(&journal, "++", first, first + many - 1, length);
        add_records(&journal, "==", first + many, first + many, length);
    }
    wants(name, run(table.at, script, UINT32_MAX, journal.length), 0, table, journal);
    free(table.at), free(journal.at);
}

/*
 * One stretch of just `bytes` bytes, then a kept line: an inserted line of the length that is missing, then lines of 5 bytes, each replaced by its copy. The
 * stretch begins with a `++`, so all of it is put in order.
 */
static void stretch_of(const char *name, size_t bytes) {
    const size_t length = 5, pair = 2 * (length + 3);
    size_t many = (bytes - 3) / pair, filled = bytes - 3 - many * pair;
    text table = table_of(many + 1, length), journal = {NULL, 0, 0};
    char script[64], inserted[32];

    snprintf(inserted, sizeof inserted, "%.*s", (int)filled, "yyyyyyyyyyyyyyyy");
    snprintf(script, sizeof script, "IS/%s/; %zu(IC; D)\n", inserted, many);
    add_records(&journal, "--", 1, many, length);
    say(&journal, "++"), say(&journal, inserted), say(&journal, "\n");
    add_records(&journal, "++", 1, many, length);
    check(name, journal.length == bytes);
    add_records(&journal, "==", many + 1, many + 1, length);
    wants(name, run(table.at, script, UINT32_MAX, journal.length), 0, table, journal);
    free(table.at), free(journal.at);
}

/* All lines replaced: the journal is one stretch, in a buffer of just its length, and one byte short, where the last copy does not go in (26). */
static void all_of(const char *name, size_t lines, size_t length) {
    static const char script[] = "RPT (IC; D; IFEOF AGP)\n";
    text table = table_of(lines, length), journal = {NULL, 0, 0}, before = {NULL, 0, 0};

    add_records(&journal, "--", 1, lines, length);
    add_records(&journal, "++", 1, lines, length);
    wants(name, run(table.at, script, UINT32_MAX, journal.length), 0, table, journal);
    add_records(&before, "--", 1, lines - 1, length);
    add_records(&before, "++", 1, lines - 1, length);
    add_records(&before, "==", lines, lines, length);
    wants(name, run(table.at, script, UINT32_MAX, journal.length - 1), ZED_JOURNAL_FULL, table, before);
    free(table.at), free(journal.at), free(before.at);
}

/* Stopped after every number of steps: four a line, of which the second copies it and the third deletes it. */
static void stopped_after_each(size_t lines, size_t length) {
    text table = table_of(lines, length);

    for (uint32_t budget = 0; budget < 4 * lines; budget++) {
        size_t copied = budget / 4 + (budget % 4 >= 2), deleted = budget / 4 + (budget % 4 == 3);
        text journal = {NULL, 0, 0};

        say(&journal, "");
        add_records(&journal, "--", 1, deleted, length);
        add_records(&journal, "++", 1, copied, length);
        add_records(&journal, "==", deleted + 1, lines, length);
        wants("stopped with 29", run(table.at, "RPT (IC; D; IFEOF AGP)\n", budget, 2 * journal.length + 99), ZED_BUDGET_SPENT, table, journal);
        free(journal.at);
    }
    free(table.at);
}

/* The worked cases of the wish, and stretches that SA, CL, DF, R and globals make. */
static void by_hand(void) {
    static const struct {
        const char *table, *script;
        uint32_t budget;
        uint64_t number, steps, furthest, place;
        const char *journal;
    } cases[] = {
        {"a\nb\n", "IS/x/; D; IS/y/; D\n", 99, 0, 4, 3, 0, "--a\n--b\n++x\n++y\n"},
        {"a\nb\n", "IS/x/; D; IS/y/; D\n", 3, 29, 3, 2, 17, "--a\n++x\n++y\n==b\n"},
        {"a\nb\n", "IS/x/; P; CL//\n", 99, 0, 3, 1, 0, "--a\n++xa\n==b\n"},
        {"a\nb\n", "IS/x/; D; P; D . 1\n", 99, 23, 4, 2, 13, "--a\n++x\n==b\n"},
        {"a\nb\n", "D; IS/x/; P; D . 1\n", 99, 28, 4, 2, 13, "--a\n++x\n==b\n"},
        {"a\nb\nc\n", "SA/a/; D\n", 99, 0, 2, 2, 0, "--a\n++a\n==b\n==c\n"},
        {"a\nb\nc\n", "IS/x/; DF/c/; IS/y/\n", 99, 0, 6, 3, 0, "--a\n--b\n++x\n++y\n==c\n"},
        {"a\nb\nc\n", "2R\nx\ny\nZ\n", 99, 0, 4, 3, 0, "--a\n--b\n++x\n++y\n++x\n++y\n==c\n"},
        {"a\nb\nc\n", "IS/x/; GE/c/d/; 2D\n", 99, 0, 6, 3, 0, "--a\n--b\n++x\n<>c\nd\n"},
        {"a\nb\nc\n", "IS/-/; D; E/b/+/; N; IS/+/; D\n", 99, 0, 6, 4, 0, "--a\n++-\n<>b\n+\n--c\n+++\n"},
        {"-\n+\n=\n", "IS/+/; 2D; IS/-/\n", 99, 0, 6, 3, 0, "---\n--+\n+++\n++-\n===\n"},
        {"", "IS/x/; IS/y/\n", 99, 0, 2, 1, 0, "++x\n++y\n"},
    };
    for (size_t i = 0; i < sizeof cases / sizeof cases[0]; i++) {
        struct outcome o = run(cases[i].table, cases[i].script, cases[i].budget, 999);
        text table = {NULL, 0, 0}, journal = {NULL, 0, 0};

        say(&table, cases[i].table), say(&journal, cases[i].journal);
        check(cases[i].script, o.answer.steps == cases[i].steps && o.answer.furthest == cases[i].furthest && o.answer.place == cases[i].place);
        wants(cases[i].script, o, cases[i].number, table, journal);
        free(table.at), free(journal.at);
    }
}

/* A listing and both sides are read from a journal in any order. */
static void unarranged(void) {
    static const uint8_t journal[] = "++x\n--a\n==b\n", listed[] = " ****  x\n    2- b\n";
    uint8_t out[64];
    size_t length = 0;

    check("listing of an unarranged journal",
          zed_listing(journal, sizeof journal - 1, out, sizeof out, &length) == ZED_DONE && length == sizeof listed - 1 && memcmp(out, listed, length) == 0);
}

int main(void) {
    by_hand();
    unarranged();
    /* short stretches; 2,048 bytes, which are put in order at once, one byte more and every size round it; the same where the halves have that size */
    for (size_t many = 1; many <= 12; many++) rows_of("a few lines, then a kept one", 40, many, 5);
    for (size_t bytes = 2000; bytes <= 2100; bytes++) stretch_of("a stretch of some 2,048 bytes", bytes);
    for (size_t bytes = 4050; bytes <= 4150; bytes++) stretch_of("a stretch of some 4,096 bytes", bytes);
    for (size_t length = 5; length <= 33; length += 4)
        for (size_t many = 1020 / (length + 3); many <= 1030 / (length + 3) + 2; many++) rows_of("rows of some 2,048 bytes, by lines of several lengths", 3, many, length);
    for (size_t many = 2; many <= 700; many += 58) rows_of("lines of 0 to 255 bytes", 3, many, LONGEST + 1);
    rows_of("the longest lines", 2, 300, LONGEST);
    stopped_after_each(60, 7);
    stopped_after_each(90, LONGEST + 1);
    /* the largest table: one stretch of 131,070 records */
    all_of("65,535 lines of 20 bytes", MOST_LINES, 20);
    all_of("65,535 lines of 255 bytes", MOST_LINES, LONGEST);
    all_of("65,535 lines of 0 to 255 bytes", MOST_LINES, LONGEST + 1);
    all_of("one line", 1, 3);
    rows_of("32,767 rows", 32767, 1, 9);
    return checked();
}
