/*
 * Runs the editor at each limit of documents 01 and 02 (wishes 1 and 2) and one past it: lines of 255 and 256 bytes, a journal buffer exact and one
 * short for each kind of command that lengthens, lines cut and joined at their ends and at the table's, sixteen globals and seventeen, lines passed
 * through them when they are read and after the script's end, the largest table and script, the deepest nesting, the work area.
 */
#include <stdio.h>
#include <stdlib.h>
#include <string.h>

#include "../include/zed.h"
#include "check.h"
#include "runs.h"

/* The run comes to this number, place and journal (NULL: any). */
static void wants(const char *name, struct outcome o, uint64_t number, uint64_t place, const char *journal) {
    int good = o.kept && o.answer.number == number && o.answer.place == place;
    if (good && journal != NULL) good = o.answer.length == strlen(journal) && memcmp(o.journal, journal, o.answer.length) == 0;
    if (!good) printf("%s: number %llu, place %llu\n", name, (unsigned long long)o.answer.number, (unsigned long long)o.answer.place);
    check(name, good);
    free(o.journal);
}

/* The same, and this is the furthest line read. */
static void wants_read(const char *name, struct outcome o, uint64_t number, uint64_t furthest, uint64_t place, const char *journal) {
    if (o.answer.furthest != furthest) printf("%s: furthest %llu\n", name, (unsigned long long)o.answer.furthest);
    check(name, o.answer.furthest == furthest);
    wants(name, o, number, place, journal);
}

/* `count` times `part`, and `end` after it. */
static char *repeat(const char *part, size_t count, const char *end) {
    size_t n = strlen(part);
    char *text = malloc(n * count + strlen(end) + 1);
    if (text == NULL) exit(2);
    for (size_t i = 0; i < count; i++) memcpy(text + i * n, part, n);
    strcpy(text + n * count, end);
    return text;
}

/* Tables and scripts with lines of 255 bytes and of 256. */
static void line_lengths(void) {
    char *longest = repeat("x", 255, "\n"), *longer = repeat("x", 256, "\n");
    char *comment = repeat(" ", 255, "\n"), *over = repeat(" ", 256, "\n");
    wants("table line of 255", run(longest, "N\n", 9, 999), 0, 0, NULL);
    wants("table line of 256", run(longer, "N\n", 9, 999), 7, 0, NULL);
    wants("script line of 255", run("a\n", comment, 9, 999), 0, 0, "==a\n");
    wants("script line of 256", run("a\n", over, 9, 999), 1, 0, NULL);
    free(longest), free(longer), free(comment), free(over);
}

/* Changes to 255 bytes are done, to 256 are stopped with 25 and leave the record. */
static void changed_lengths(void) {
    static const char *const commands[] = { "A/a/xy/\n", "B/a/xy/\n", "E/a/xyz/\n", "AP/a/xy/\n", "BP/a/xy/\n", "EP/a/xyz/\n" };
    char *fits = repeat("b", 252, "a\n"), *not = repeat("b", 253, "a\n"), *kept = repeat("b", 253, "a\n");
    char journal[300];
    snprintf(journal, sizeof journal, "==%s", kept);
    for (size_t i = 0; i < sizeof commands / sizeof commands[0]; i++) {
        wants("line becomes 255", run(fits, commands[i], 9, 999), 0, 0, NULL);
        wants("line would become 256", run(not, commands[i], 9, 999), 25, 0, journal);
    }
    free(fits), free(not), free(kept);
}

/* A journal buffer of just the journal's length, and one byte shorter: then 26, and the journal is as before the command. */
static void journal_rooms(void) {
    static const struct {
        const char *script, *before;
        uint64_t place;
    } cases[] = {
        { "A/b/x/\n", "==abc\n==d\n", 0 },        { "B/b/x/\n", "==abc\n==d\n", 0 },      { "E/b/xy/\n", "==abc\n==d\n", 0 },
        { "AP/b/x/\n", "==abc\n==d\n", 0 },       { "BP/b/x/\n", "==abc\n==d\n", 0 },     { "EP/b/x/\n", "==abc\n==d\n", 0 },
        { "#\n", "==abc\n==d\n", 0 },             { "%\n", "==abc\n==d\n", 0 },           { "IS/x/\n", "==abc\n==d\n", 0 },
        { "IC\n", "==abc\n==d\n", 0 },            { "I\nx\ny\nZ\n", "==abc\n==d\n", 0 },  { "I 2\nx\nZ\n", "==abc\n==d\n", 0 },
        { "I *\nx\nZ\n", "==abc\n==d\n", 0 },     { "R\nx\nZ\n", "==abc\n==d\n", 0 },     { "R 1 2\nx\nZ\n", "==abc\n==d\n", 0 },
        { "R 2 *\nx\ny\nZ\n", "==abc\n==d\n", 0 }, { "%;A/b/xx/\n", "<>abc\nAbc\n==d\n", 2 }, { "%;R\nlonger\nZ\n", "<>abc\nAbc\n==d\n", 2 },
        { "IS/x/;P;E/x/yz/\n", "++x\n==abc\n==d\n", 8 }, { "IS/x/;P;R\nlonger\nZ\n", "++x\n==abc\n==d\n", 8 },
        { "SA/b/\n", "==abc\n==d\n", 0 },        { "SB/b/\n", "==abc\n==d\n", 0 },      { "SA//\n", "==abc\n==d\n", 0 },
        { "SA E//\n", "==abc\n==d\n", 0 },       { "%;SA/b/\n", "<>abc\nAbc\n==d\n", 2 }, { "IS/xyz/;P;SB/z/\n", "++xyz\n==abc\n==d\n", 10 },
        { "CL//\n", "==abc\n==d\n", 0 },         { "CL/-/\n", "==abc\n==d\n", 0 },      { "%;CL/-/\n", "<>abc\nAbc\n==d\n", 2 },
        /* CL takes a changed line or an inserted one, and so frees bytes */
        { "N;E/d/dd/;P;CL//\n", "==abc\n<>d\ndd\n", 12 }, { "N;IS/xx/;2P;CL//\n", "==abc\n++xx\n==d\n", 12 },
        { "IS/x/;IS/yy/;2P;CL/12345/\n", "++x\n++yy\n==abc\n==d\n", 16 }, { "IS/x/;P;CL/1234/\n", "++x\n==abc\n==d\n", 8 },
    };
    for (size_t i = 0; i < sizeof cases / sizeof cases[0]; i++) {
        struct outcome o = run("abc\nd\n", cases[i].script, 99, 999), exact;
        size_t length = (size_t)o.answer.length;
        exact = run("abc\nd\n", cases[i].script, 99, length);
        check(cases[i].script, o.kept && exact.kept && o.answer.number == 0 && memcmp(&o.answer, &exact.answer, sizeof o.answer) == 0 &&
                                   memcmp(o.journal, exact.journal, length) == 0);
        wants(cases[i].script, run("abc\nd\n", cases[i].script, 99, length - 1), 26, cases[i].place, cases[i].before);
        free(o.journal), free(exact.journal);
    }
    wants("opening journal exact", run("abc\nd\n", "N\n", 9, 10), 0, 0, "==abc\n==d\n");
    wants("opening journal one short", run("abc\nd\n", "N\n", 9, 9), 9, 0, NULL);
    wants("no journal buffer for no lines", run("", "\n", 9, 0), 0, 0, "");
}

/* A buffer that is full before a cut or a join that shortens the journal: it is done. */
static void shorter_journals(void) {
    static const struct {
        const char *table, *script, *before, *journal;
    } cases[] = {
        { "abc\nd\n", "%;N;E/d/dddddd/;P;CL//\n", "<>abc\nAbc\n<>d\ndddddd\n", "<>abc\nAbcdddddd\n--d\n" },
        { "abc\nd\n", "IS/x/;IS/yy/;2P;CL//\n", "++x\n++yy\n==abc\n==d\n", "++xyy\n==abc\n==d\n" },
        { "abc\nd\n", "%;N;IS/xx/;2P;CL//\n", "<>abc\nAbc\n++xx\n==d\n", "<>abc\nAbcxx\n==d\n" },
        { "ab\nb\n", "E/b//;CL//\n", "<>ab\na\n==b\n", "==ab\n--b\n" },
        { "abc\nd\n", "B//z/;SB/abc/\n", "<>abc\nzabc\n==d\n", "++z\n==abc\n==d\n" },
    };
    for (size_t i = 0; i < sizeof cases / sizeof cases[0]; i++) {
        size_t full = strlen(cases[i].before);
        struct outcome o = run(cases[i].table, cases[i].script, 99, full - 1);
        check("one byte less is too short before it", o.kept && o.answer.number == 26 && strlen(cases[i].journal) < full);
        wants(cases[i].script, run(cases[i].table, cases[i].script, 99, full), 0, 0, cases[i].journal);
        free(o.journal);
    }
}

/* Lines joined to 255 bytes, and to 256: then 25, the next line is read and every record stays. Lines of 255 bytes cut. */
static void joined_lengths(void) {
    char *x = repeat("x", 200, ""), *fits = repeat("y", 54, ""), *not = repeat("y", 55, ""), *a = repeat("a", 255, "");
    char *stops = repeat("a\n", 300, ""), *ones = repeat("++a\n", 255, ""), *gone = repeat("--a\n", 254, ""), *left = repeat("==a\n", 45, "");
    char table[999], script[999], journal[9999];
    snprintf(table, sizeof table, "%s\n%s\n", x, fits);
    snprintf(journal, sizeof journal, "<>%s\n%s-%s\n--%s\n", x, x, fits, fits);
    wants_read("joined to 255", run(table, "CL/-/\n", 9, 999), 0, 2, 0, journal);
    snprintf(table, sizeof table, "%s\n%s\n", x, not);
    snprintf(journal, sizeof journal, "==%s\n==%s\n", x, not);
    wants_read("joined to 256", run(table, "CL/-/\n", 9, 999), 25, 2, 0, journal);
    wants_read("joined to 256, the journal full", run(table, "CL/-/\n", 9, strlen(journal)), 25, 2, 0, journal);
    snprintf(script, sizeof script, "IS/%s/\nIS/%s/\n2P;CL/-/\n", x, fits);
    snprintf(journal, sizeof journal, "++%s-%s\n==a\n", x, fits);
    wants_read("joined to 255, both inserted", run("a\n", script, 99, 999), 0, 1, 0, journal);
    snprintf(script, sizeof script, "IS/%s/\nIS/%s/\n2P;CL/-/\n", x, not);
    snprintf(journal, sizeof journal, "++%s\n++%s\n==a\n", x, not);
    wants_read("joined to 256, both inserted", run("a\n", script, 99, 999), 25, 1, strlen(script) - 6, journal);
    snprintf(journal, sizeof journal, "<>a\n%s\n%s%s", a, gone, left);
    wants_read("joined one by one", run(stops, "RPT CL//\n", 999, 9999), 25, 256, 4, journal);

    snprintf(table, sizeof table, "%s\n", a);
    snprintf(journal, sizeof journal, "++\n==%s\n", a);
    wants_read("255 cut at the start", run(table, "SA//\n", 9, 999), 0, 1, 0, journal);
    snprintf(journal, sizeof journal, "++%s\n<>%s\n\n", a, a);
    wants_read("255 cut at the end", run(table, "SA E//\n", 9, 999), 0, 1, 0, journal);
    snprintf(journal, sizeof journal, "%s<>%s\n\n", ones, a);
    wants_read("255 cut one by one", run(table, "RPT SA/a/\n", 999, 9999), 24, 1, 4, journal);
    snprintf(journal, sizeof journal, "==%s\n", a);
    wants_read("255 on the last line", run(table, "CL/z/\n", 9, strlen(journal)), 30, 2, 0, journal);
    free(x), free(fits), free(not), free(a), free(stops), free(ones), free(gone), free(left);
}

/* SA, SB and CL at the ends of lines and of the table: number, furthest line, place, journal. */
static void cuts_and_joins(void) {
    static const struct {
        const char *table, *script;
        uint64_t number, furthest, place;
        const char *journal;
    } cases[] = {
        /* the left part is inserted before the line, which keeps its number and the rest */
        { "ab12\nz\n", "SA/ab/\n", 0, 1, 0, "++ab\n<>ab12\n12\n==z\n" },
        { "ab12\nz\n", "SB/12/;M 1;D\n", 0, 2, 0, "--ab12\n++ab\n==z\n" },
        { "aXaX\n", "PA/a/;SB/a/\n", 0, 1, 0, "++aX\n<>aXaX\naX\n" },
        { "a\n", "IS/xy/;P;SA/x/\n", 0, 1, 0, "++x\n++y\n==a\n" },
        /* an empty left part, an empty rest, both; the old text again makes a kept record */
        { "ab12\n", "SB/ab/\n", 0, 1, 0, "++\n==ab12\n" },
        { "ab12\n", "SA//\n", 0, 1, 0, "++\n==ab12\n" },
        { "ab12\n", "SA/12/\n", 0, 1, 0, "++ab12\n<>ab12\n\n" },
        { "ab12\n", "SA L//\n", 0, 1, 0, "++ab12\n<>ab12\n\n" },
        { "\n", "SA//\n", 0, 1, 0, "++\n==\n" },
        { "b\n", "B//a/;SA/a/\n", 0, 1, 0, "++a\n==b\n" },
        /* p is 0 afterwards; no match; no line */
        { "ab12\n", "PA/ab/;SA/1/;<\n", 27, 1, 13, "++ab1\n<>ab12\n2\n" },
        { "ab12\n", "PA/b/;SB/b/\n", 24, 1, 6, "==ab12\n" },
        { "a\n", "N;SA/a/\n", 20, 2, 2, "==a\n" },
        { "", "SB//\n", 20, 1, 0, "" },

        /* CL reads the next line and deletes it, a changed one with its old text; p stays */
        { "a\nb\nc\n", "CL//\n", 0, 2, 0, "<>a\nab\n--b\n==c\n" },
        { "a\nb\nc\n", "2CL/-\n", 0, 3, 0, "<>a\na-b-c\n--b\n--c\n" },
        { "a\nb\n", "N;E/b/x/;P;CL//\n", 0, 2, 0, "<>a\nax\n--b\n" },
        { "ab\ncd\n", "PA/b/;CL/-/;A//!/\n", 0, 2, 0, "<>ab\nab!-cd\n--cd\n" },
        { "ab\nb\n", "E/b//;CL//\n", 0, 2, 0, "==ab\n--b\n" },
        { "\n\n", "CL//\n", 0, 2, 0, "==\n--\n" },
        /* over deleted lines; an inserted line leaves no record, and raises nothing */
        { "a\nb\nc\nd\ne\n", "D 2 3;M 1;CL/-/\n", 0, 4, 0, "<>a\na-d\n--b\n--c\n--d\n==e\n" },
        { "a\nb\nc\n", "D 2;IS/x/;M 1;CL//\n", 0, 3, 0, "<>a\nax\n--b\n==c\n" },
        { "a\nb\n", "N;IS/x/;2P;CL//\n", 0, 2, 0, "<>a\nax\n==b\n" },
        { "a\n", "IS/x/;IS/y/;2P;CL//\n", 0, 1, 0, "++xy\n==a\n" },
        { "a\nb\n", "IS/x/;P;CL//\n", 0, 1, 0, "--a\n++xa\n==b\n" },
        /* no next line: EOF is read, also where deleted lines follow, and from an inserted line */
        { "a\n", "CL//\n", 30, 2, 0, "==a\n" },
        { "a\nb\n", "2CL//\n", 30, 3, 1, "<>a\nab\n--b\n" },
        { "a\nb\nc\n", "D 2 *;P;CL//\n", 30, 4, 8, "==a\n--b\n--c\n" },
        { "a\n", "IS/x/;P;2CL//\n", 30, 2, 9, "--a\n++xa\n" },
        { "a\n", "M *;IS/x/;P;CL//\n", 30, 2, 12, "==a\n++x\n" },
        /* no line */
        { "a\nb\n", "M *;CL//\n", 20, 3, 4, "==a\n==b\n" },
        { "", "CL//\n", 20, 1, 0, "" },
    };
    for (size_t i = 0; i < sizeof cases / sizeof cases[0]; i++) {
        wants_read(cases[i].script, run(cases[i].table, cases[i].script, 99, 999), cases[i].number, cases[i].furthest, cases[i].place, cases[i].journal);
    }
    wants_read("CL with 26 has read the next line", run("a\nb\n", "CL//\n", 9, 10), 26, 2, 0, "==a\n==b\n");
    wants_read("CL with 29 has read nothing", run("a\nb\n", "CL//\n", 0, 99), 29, 1, 0, "==a\n==b\n");
}

/* Globals: the lines that they act on, the text that they leave, and what the reading command makes of it. */
static void globals(void) {
    static const struct {
        const char *table, *script;
        uint64_t number, steps, furthest, place;
        const char *journal;
    } cases[] = {
        /* the lines read after it, and the unread ones of a done run; never line 1, nor a line that was read before */
        { "a\na\na\n", "GE/a/b/;N;CG\n", 0, 3, 2, 0, "==a\n<>a\nb\n==a\n" },
        { "a\na\na\n", "GE/a/b/\n", 0, 1, 1, 0, "==a\n<>a\nb\n<>a\nb\n" },
        { "a\na\na\n", "GE/a/b/;2N\n", 0, 5, 3, 0, "==a\n<>a\nb\n<>a\nb\n" },
        { "a\na\na\n", "GE/a/b/;M *\n", 0, 2, 4, 0, "==a\n<>a\nb\n<>a\nb\n" },
        { "a\n", "GE/a/b/\n", 0, 1, 1, 0, "==a\n" },
        { "", "GE/a/b/\n", 0, 1, 1, 0, "" },
        { "", "GE/a/b/;M *\n", 0, 2, 1, 0, "" },
        { "a\na\na\n", "N;GE/a/b/\n", 0, 2, 2, 0, "==a\n==a\n<>a\nb\n" },
        { "a\na\na\n", "M *;GE/a/b/;M 1;2N\n", 0, 7, 4, 0, "==a\n==a\n==a\n" },
        { "a\na\n", "GE/a/b/;N;P;E/a/x/\n", 0, 4, 2, 0, "<>a\nx\n<>a\nb\n" },
        { "\n\n", "GE/a/b/;M *\n", 0, 2, 3, 0, "==\n==\n" },
        /* inserted lines and left parts are not acted on */
        { "a\na\n", "GE/a/b/;IS/a/;IC;N;IS/a/\n", 0, 5, 2, 0, "++a\n++a\n==a\n++a\n<>a\nb\n" },
        { "a\na\n", "GE/a/b/;I 2\na\nZ\n", 0, 2, 2, 0, "==a\n++a\n<>a\nb\n" },
        { "a\na\n", "GE/a/b/;I *\na\nZ\n", 0, 2, 3, 0, "==a\n<>a\nb\n++a\n" },
        { "a\nxa\n", "GE/x/y/;N;SB/a/\n", 0, 3, 2, 0, "==a\n++y\n<>xa\na\n" },
        /* CG cancels all, and what comes after it stands alone */
        { "a\na\na\n", "GE/a/b/;N;CG;N\n", 0, 4, 3, 0, "==a\n<>a\nb\n==a\n" },
        { "a\na\na\n", "GE/a/b/;CG;GE/a/c/\n", 0, 3, 1, 0, "==a\n<>a\nc\n<>a\nc\n" },
        { "a\na\n", "CG;N\n", 0, 2, 2, 0, "==a\n==a\n" },
        { "a\na\n", "GE/a/b/;GA/b/c/;CG 1N\n", 0, 5, 2, 0, "==a\n==a\n" },
        /* all occurrences from left to right, none in what was put in; the next global sees it */
        { "a\nab\n", "GA/a/1/;GB/a/2/;GE/1/11/;N\n", 0, 4, 2, 0, "==a\n<>ab\n2a11b\n" },
        { "z\naaaaa\n", "GE/aa/a/;N\n", 0, 2, 2, 0, "==z\n<>aaaaa\naaa\n" },
        { "z\naaaaa\n", "GA/aa/a/;N\n", 0, 2, 2, 0, "==z\n<>aaaaa\naaaaaaa\n" },
        { "z\naaaaa\n", "GB/aa/b/;N\n", 0, 2, 2, 0, "==z\n<>aaaaa\nbaabaaa\n" },
        { "z\naba\n", "GE/a\nN\n", 0, 2, 2, 0, "==z\n<>aba\nb\n" },
        { "z\naba\n", "GE/a/\n", 0, 1, 1, 0, "==z\n<>aba\nb\n" },
        { "z\naaa\n", "GE/a//\n", 0, 1, 1, 0, "==z\n<>aaa\n\n" },
        { "z\na,a\n", "GE:,:;:\nN\n", 0, 2, 2, 0, "==z\n<>a,a\na;a\n" },
        /* the old text again makes a kept record */
        { "z\naa\nab\n", "GE/a/b/;GE/b/a/;M *\n", 0, 3, 4, 0, "==z\n==aa\n<>ab\naa\n" },
        { "z\nab\n", "GE/ab/ba/;GE/ba/ab/\n", 0, 2, 1, 0, "==z\n==ab\n" },
        { "z\nab\n", "GA/a//;N\n", 0, 2, 2, 0, "==z\n==ab\n" },
        { "z\nab\n", "GE/a/a/\n", 0, 1, 1, 0, "==z\n==ab\n" },
        /* what a command reads has passed before it is tested, joined or deleted; a deleted line has its old text */
        { "a\na\na\na\n", "GE/a/b/;D 2 3\n", 0, 2, 4, 0, "==a\n--a\n--a\n<>a\nb\n" },
        { "a\na\na\n", "GE/a/b/;D . *\n", 0, 2, 4, 0, "--a\n--a\n--a\n" },
        { "a\na\na\n", "GE/a/b/;D\n", 0, 2, 2, 0, "--a\n<>a\nb\n<>a\nb\n" },
        { "a\na\na\n", "GE/a/b/;R 2\nx\nZ\n", 0, 2, 3, 0, "==a\n--a\n++x\n<>a\nb\n" },
        { "a\na\na\n", "GE/a/b/;R\nx\nZ\n", 0, 2, 2, 0, "--a\n++x\n<>a\nb\n<>a\nb\n" },
        { "a\na\na\n", "GE/a/b/;F/b/\n", 0, 4, 2, 0, "==a\n<>a\nb\n<>a\nb\n" },
        { "a\na\na\n", "GE/a/b/;DF/b/;D\n", 0, 5, 3, 0, "--a\n--a\n<>a\nb\n" },
        { "a\na\na\n", "GE/a/b/;N;F/a/\n", 21, 5, 4, 10, "==a\n<>a\nb\n<>a\nb\n" },
        { "a\na\na\n", "GE/a/b/;M 3;BF/a/\n", 0, 6, 3, 0, "==a\n<>a\nb\n<>a\nb\n" },
        { "a\na\na\n", "GE/a/b/;CL/-/\n", 0, 2, 2, 0, "<>a\na-b\n--a\n<>a\nb\n" },
        { "a\na\n", "GE/a/b/;2CL//\n", 30, 5, 3, 9, "<>a\nab\n--a\n" },
        { "a\na\na\n", "GE/a/b/;I 3\nx\nZ\n", 0, 2, 3, 0, "==a\n<>a\nb\n++x\n<>a\nb\n" },
        /* changes stay where the command that read the line then stops, or a later one; the unread lines of a stopped run are kept */
        { "a\na\na\n", "GE/a/b/;M 9\n", 21, 2, 4, 8, "==a\n<>a\nb\n<>a\nb\n" },
        { "a\na\na\n", "GE/a/b/;N;E/a/x/\n", 24, 3, 2, 10, "==a\n<>a\nb\n==a\n" },
        { "a\na\na\n", "GE/a/b/;M *;N\n", 20, 3, 4, 12, "==a\n<>a\nb\n<>a\nb\n" },
        { "a\na\na\n", "GE/a/b/;D . 9\n", 21, 2, 4, 8, "==a\n<>a\nb\n<>a\nb\n" },
        { "a\na\na\n", "GE/a/b/;M 3;D 3 2\n", 28, 3, 3, 12, "==a\n<>a\nb\n<>a\nb\n" },
        { "a\na\na\n", "GE/a/b/;N;P;P\n", 22, 4, 2, 12, "==a\n<>a\nb\n==a\n" },
        /* how they are read */
        { "a\n", "GE\n", 3, 0, 0, 2, "" },
        { "a\n", "GE B/a/b/\n", 3, 0, 0, 3, "" },
        { "a\n", "GE 2/a/b/\n", 3, 0, 0, 3, "" },
        { "a\n", "GA//b/\n", 4, 0, 0, 2, "" },
        { "a\n", "GB /\n", 4, 0, 0, 3, "" },
        { "a\n", "GEX/a/b/\n", 2, 0, 0, 0, "" },
        { "a\n", "CG+\n", 2, 0, 0, 2, "" },
        { "a\n", "CGX\n", 2, 0, 0, 0, "" },
        { "z\na\n", "ge/a/b\nCg;gb/a/c\n", 0, 3, 1, 0, "==z\n<>a\nca\n" },
    };
    for (size_t i = 0; i < sizeof cases / sizeof cases[0]; i++) {
        struct outcome o = run(cases[i].table, cases[i].script, 99, 999);
        if (o.answer.steps != cases[i].steps) printf("%s: steps %llu\n", cases[i].script, (unsigned long long)o.answer.steps);
        check("globals: steps", o.answer.steps == cases[i].steps);
        wants_read(cases[i].script, o, cases[i].number, cases[i].furthest, cases[i].place, cases[i].journal);
    }
    /* a line is read, and changed, before the step of its test; a command that is not given its step has read nothing */
    wants_read("F reads before its step", run("a\na\n", "GE/a/b/;F/z/\n", 3, 99), 29, 2, 8, "==a\n<>a\nb\n");
    wants_read("F stops with 26 before its step", run("a\na\n", "GE/a/b/;F/z/\n", 3, 9), 26, 2, 8, "==a\n==a\n");
    wants_read("N with 29 has read nothing", run("a\na\n", "GE/a/b/;N\n", 1, 99), 29, 1, 8, "==a\n==a\n");
    wants_read("GE with 29 does not stand", run("a\na\n", "GE/a/b/\n", 0, 99), 29, 1, 0, "==a\n==a\n");
}

/* Sixteen globals stand and act in turn. A seventeenth is 31 when it is obeyed, and not before; after CG there is room for sixteen again. */
static void sixteen_globals(void) {
    static const char chain[] = "GE/a/b/;GE/b/c/;GE/c/d/;GE/d/e/;GE/e/f/;GE/f/g/;GE/g/h/;GE/h/i/\n"
                                "GE/i/j/;GE/j/k/;GE/k/l/;GE/l/m/;GE/m/n/;GE/n/o/;GE/o/p/;GE/p/q/\n";
    char script[300];
    snprintf(script, sizeof script, "%sN;CG\n", chain);
    wants_read("sixteen in turn, read", run("a\na\na\n", script, 99, 99), 0, 2, 0, "==a\n<>a\nq\n==a\n");
    wants_read("sixteen in turn, not read", run("a\na\na\n", chain, 99, 99), 0, 1, 0, "==a\n<>a\nq\n<>a\nq\n");
    snprintf(script, sizeof script, "%sN;GE/q/r/\n", chain);
    wants_read("a seventeenth", run("a\na\na\n", script, 99, 99), 31, 2, strlen(script) - 8, "==a\n<>a\nq\n==a\n");
    wants_read("a seventeenth that is not obeyed", run("a\na\n", "16GE/a/b/;0GA/b/c/;IFEOF GB/b/c/;N\n", 99, 99), 0, 2, 0, "==a\n<>a\nb\n");
    wants_read("sixteen alike", run("a\na\n", "16GA/a/b/;N\n", 99, 99), 0, 2, 0, "==a\n<>a\nabbbbbbbbbbbbbbbb\n");
    wants_read("seventeen alike", run("a\na\n", "17GA/a/b/;N\n", 99, 99), 31, 1, 2, "==a\n==a\n");
    wants_read("seventeen without effect", run("a\na\n", "16GE/z/z/;GE/z/z/\n", 99, 99), 31, 1, 10, "==a\n==a\n");
    wants_read("sixteen again after CG", run("a\na\n", "16GE/a/b/;CG;16GB/a/c/;N\n", 99, 99), 0, 2, 0, "==a\n<>a\ncccccccccccccccca\n");
    wants_read("seventeen after CG", run("a\na\n", "16GE/a/b/;CG;17GB/a/c/;N\n", 99, 99), 31, 1, 15, "==a\n==a\n");
    wants_read("no step for a seventeenth", run("a\na\n", "16GE/a/b/;GE/a/b/\n", 32, 99), 29, 1, 10, "==a\n==a\n");
}

/*
 * 255 bytes after the first of two globals, and 256: then 25, though the second would shorten the line. It keeps its text and counts as read; after
 * the script's end no unread line is changed.
 */
static void passed_lengths(void) {
    char *fits = repeat("b", 253, "a"), *not = repeat("b", 254, "a");
    char table[999], journal[999];
    snprintf(table, sizeof table, "z\n%s\na\n", fits);
    snprintf(journal, sizeof journal, "==z\n<>%s\nxx\n<>a\nxx\n", fits);
    wants_read("255 after the first, read", run(table, "GE/a/xx/;GE/b//;M *\n", 9, 999), 0, 4, 0, journal);
    wants_read("255 after the first, not read", run(table, "GE/a/xx/;GE/b//\n", 9, 999), 0, 1, 0, journal);
    snprintf(table, sizeof table, "z\na\n%s\na\n", not);
    snprintf(journal, sizeof journal, "==z\n<>a\nxx\n==%s\n==a\n", not);
    wants_read("256 after the first, read", run(table, "GE/a/xx/;GE/b//;M *\n", 9, 999), 25, 3, 16, journal);
    wants_read("256 after the first, instead of 21", run(table, "GE/a/xx/;GE/b//;M 9\n", 9, 999), 25, 3, 16, journal);
    wants_read("256 after the first, instead of 26", run(table, "GE/a/xx/;GE/b//;M 9\n", 9, strlen(journal)), 25, 3, 16, journal);
    wants_read("256 after the first, D", run(table, "GE/a/xx/;GE/b//;D 1 2\n", 9, 999), 25, 3, 16, journal);
    wants_read("256 after the first, R", run(table, "GE/a/xx/;GE/b//;R 1 2\nx\nZ\n", 9, 999), 25, 3, 16, journal);
    wants_read("256 after the first, CL", run(table, "GE/a/xx/;GE/b//;N;CL//\n", 9, 999), 25, 3, 18, journal);
    wants_read("256 after the first, F", run(table, "GE/a/xx/;GE/b//;F/y/\n", 5, 999), 25, 3, 16, journal);
    wants_read("256 after the first, DF", run(table, "GE/a/xx/;GE/b//;DF/y/\n", 5, 999), 25, 3, 16, journal);
    wants_read("256 after the first, the line before read", run(table, "GE/a/xx/;GE/b//;N\n", 9, 999), 25, 2, 18, journal);
    snprintf(journal, sizeof journal, "==z\n==a\n==%s\n==a\n", not);
    wants_read("256 after the first, not read", run(table, "GE/a/xx/;GE/b//\n", 9, 999), 25, 1, 16, journal);
    wants_read("256 after the first, after W", run(table, "GE/a/xx/;GE/b//;W;N\n\\ end\n", 9, 999), 25, 1, 26, journal);
    wants_read("256 cancelled", run(table, "GE/a/xx/;GE/b//;CG;M *\n", 9, 999), 0, 5, 0, journal);
    snprintf(journal, sizeof journal, "==z\n<>a\nc\n<>%s\n%.254sc\n<>a\nc\n", not, not);
    wants_read("255 stays 255", run(table, "GE/a/c/;M *\n", 9, 999), 0, 5, 0, journal);
    free(fits), free(not);
}

/*
 * A run with globals whose journal buffer has `least` bytes at the least: done with so many and with more, and with one byte less it ends with 26,
 * on reading, by the command itself, or after the script's end with the script's length as place.
 */
static void needs_room(const char *table, const char *script, size_t least, uint64_t furthest, uint64_t place, const char *before) {
    struct outcome o = run(table, script, 99, 999), exact = run(table, script, 99, least);

    check(script, o.kept && exact.kept && o.answer.number == 0 && memcmp(&o.answer, &exact.answer, sizeof o.answer) == 0 &&
                      memcmp(o.journal, exact.journal, (size_t)o.answer.length) == 0);
    wants_read(script, run(table, script, 99, least - 1), 26, furthest, place, before);
    free(o.journal), free(exact.journal);
}

static void passed_rooms(void) {
    needs_room("a\na\na\n", "GE/a/b/;N;CG\n", 14, 2, 8, "==a\n==a\n==a\n");
    needs_room("a\na\na\n", "GE/a/b/;M *\n", 16, 3, 8, "==a\n<>a\nb\n==a\n");
    needs_room("a\na\na\n", "GE/a/b/\n", 16, 1, 8, "==a\n==a\n==a\n");
    needs_room("a\na\na\n", "GE/a/b/;N\n", 16, 2, 10, "==a\n<>a\nb\n==a\n");
    needs_room("a\na\na\n", "GE/a/bb/;GE/bb/c/\n", 16, 1, 18, "==a\n==a\n==a\n");
    needs_room("a\na\n", "GE/a/b/;D\n", 10, 2, 8, "==a\n==a\n");
    needs_room("a\na\na\n", "GE/a/b/;D 1 2\n", 16, 3, 8, "==a\n<>a\nb\n==a\n");
    needs_room("a\na\na\n", "GE/a/b/;R\nx\nZ\nCG\n", 18, 2, 8, "==a\n<>a\nb\n==a\n");
    needs_room("a\na\na\n", "GE/a/b/;CL//;CG\n", 15, 2, 8, "==a\n<>a\nb\n==a\n");
    needs_room("a\na\na\n", "GE/a/b/;F/b/;CG\n", 14, 2, 8, "==a\n==a\n==a\n");
    needs_room("a\na\na\n", "GE/a/b/;DF/b/;CG\n", 14, 2, 8, "==a\n==a\n==a\n");
    needs_room("a\na\na\n", "GE/a/b/;I 3\nx\nZ\n", 20, 3, 8, "==a\n<>a\nb\n<>a\nb\n");
    needs_room("a\na\na\n", "GE/a/b/;I *\nx\nZ\n", 20, 4, 8, "==a\n<>a\nb\n<>a\nb\n");
    needs_room("a\na\na\n", "GE/a/b/;W;N\n", 16, 1, 12, "==a\n==a\n==a\n");
    needs_room("a\na\na\n", "GE/a/b/;AGP;N\n\\ end\n", 16, 1, 20, "==a\n==a\n==a\n");
    needs_room("a\na\na\n", "IS/x/;D;GE/a/b/\n", 18, 2, 16, "--a\n++x\n==a\n==a\n");
    needs_room("a\na\na\n", "%;GE/a/b/\n", 18, 1, 10, "<>a\nA\n==a\n==a\n");
    needs_room("a\nab\nc\n", "GE/a//;N;CG\n", 15, 2, 7, "==a\n==ab\n==c\n");
    needs_room("a\nb\na\n", "GE/a//\n", 13, 1, 7, "==a\n==b\n==a\n");
}

/* 65,535 lines through one global and through sixteen, read and after the script's end; the journal buffer exact and one short. */
static void passed_sizes(void) {
    static const struct {
        const char *script, *text;
    } cases[] = { { "GE/a/bb/", "bb" }, { "16GA/a/b/", "abbbbbbbbbbbbbbbb" } };
    char *lines = repeat("a\n", 65535, ""), *kept = repeat("==a\n", 65535, "");
    for (size_t i = 0; i < sizeof cases / sizeof cases[0]; i++) {
        char record[99], script[99];
        size_t length = 4 + (5 + strlen(cases[i].text)) * 65534;
        snprintf(record, sizeof record, "<>a\n%s\n", cases[i].text);
        char *rest = repeat(record, 65534, ""), *but_last = repeat(record, 65533, "==a\n"), *all = malloc(length + 1), *short_of = malloc(length + 1);
        if (all == NULL || short_of == NULL) exit(2);
        strcat(strcpy(all, "==a\n"), rest), strcat(strcpy(short_of, "==a\n"), but_last);
        check("65,535 lines passed: the journal's length", strlen(all) == length);

        snprintf(script, sizeof script, "%s;M *\n", cases[i].script);
        wants_read("65,535 lines passed, read", run(lines, script, 99, length), 0, 65536, 0, all);
        wants_read("65,535 lines passed, read, one short", run(lines, script, 99, length - 1), 26, 65535, strlen(script) - 4, short_of);
        snprintf(script, sizeof script, "%s\n", cases[i].script);
        wants_read("65,535 lines passed, not read", run(lines, script, 99, length), 0, 1, 0, all);
        wants_read("65,535 lines passed, not read, one short", run(lines, script, 99, length - 1), 26, 1, strlen(script), kept);
        snprintf(script, sizeof script, "%s;M 65535\n", cases[i].script);
        wants_read("65,535 lines passed, the last current", run(lines, script, 99, length), 0, 65535, 0, all);
        free(rest), free(but_last), free(all), free(short_of);
    }
    free(lines), free(kept);
}

/* The largest table and one line more; the largest script and one byte more. */
static void sizes(void) {
    char *lines = repeat("\n", 65535, ""), *more = repeat("\n", 65536, "");
    char *row = repeat(";", 254, "\n"), *last = repeat(";", 63, "\n"), *longer = repeat(";", 64, "\n");
    char *script = repeat(row, 64, last), *over = repeat(row, 64, longer);
    struct outcome o = run(lines, "M *\n", 9, 3 * 65535);
    check("65,535 lines: furthest", o.answer.furthest == 65536 && o.answer.length == 3 * 65535);
    wants("65,535 lines", o, 0, 0, NULL);
    wants("65,536 lines", run(more, "M *\n", 9, 3 * 65536), 7, 0, NULL);
    o = run(lines, "M 65535; D\n", 9, 3 * 65535);
    check("the last line: its record", o.kept && memcmp(o.journal + 3 * 65534, "--\n", 3) == 0);
    wants("the last line", o, 0, 0, NULL);
    o = run(lines, "M 65534; CL//\n", 9, 3 * 65535);
    check("the last line joined: its record", o.kept && memcmp(o.journal + 3 * 65534, "--\n", 3) == 0);
    wants_read("the last line joined", o, 0, 65535, 0, NULL);
    wants_read("nothing to join to the last line", run(lines, "M 65535; CL//\n", 9, 3 * 65535), 30, 65536, 9, NULL);
    o = run(lines, "M 65535; SA//\n", 9, 3 * 65536);
    check("the last line cut: 65,536 new lines", o.answer.length == 3 * 65536);
    wants_read("the last line cut", o, 0, 65535, 0, NULL);
    check("the script's own size", strlen(script) == 16384 && strlen(over) == 16385);
    wants("script of 16,384 bytes", run("a\n", script, 9, 99), 0, 0, "==a\n");
    wants("script of 16,385 bytes", run("a\n", over, 9, 99), 1, 0, NULL);
    free(lines), free(more), free(row), free(last), free(longer), free(script), free(over);
}

/* Bodies in bodies as deep as lines and groups allow: 17 lines, each opening a group but the last. */
static void nesting(void) {
    static const struct {
        const char *opener;
        size_t bytes;
    } openers[] = { { "IF//", 4 }, { "1 ", 2 }, { "1WH//", 5 }, { "2IF//", 5 }, { "1RPT ", 5 }, { "UL N//", 6 } };
    for (size_t i = 0; i < sizeof openers / sizeof openers[0]; i++) {
        char *row = repeat(openers[i].opener, 250 / openers[i].bytes, "(\n"), *rows = repeat(row, 16, "");
        char *last = repeat(openers[i].opener, 250 / openers[i].bytes, "W\n"), *ends = repeat(")", 16, "\n");
        char *script = malloc(strlen(rows) + strlen(last) + strlen(ends) + 1);
        if (script == NULL) exit(2);
        strcat(strcat(strcpy(script, rows), last), ends);
        struct outcome o = run("a\n", script, UINT32_MAX, 99);
        check("nested: every body is begun", o.answer.steps > 17 * (250 / openers[i].bytes));
        wants("nested", o, 0, 0, "==a\n");
        free(row), free(rows), free(last), free(ends), free(script);
    }
}

/* A work area of just the length, and one number shorter: 8, before the script is decoded and before the table is looked at. */
static void work_areas(void) {
    wants("work area exact", run_bytes("a\n", 2, "N\n", 2, 9, 68, 99), 0, 0, "==a\n");
    wants("work area one short", run_bytes("a\n", 2, "N\n", 2, 9, 67, 99), 8, 0, NULL);
    wants("work area before the script", run_bytes("a\n", 2, "?\n", 2, 9, 67, 99), 8, 0, NULL);
    wants("work area before the table", run_bytes("a", 1, "N\n", 2, 9, 67, 99), 8, 0, NULL);
    wants("the script's form before the work area", run_bytes("a\n", 2, "N", 1, 9, 0, 99), 1, 0, NULL);
    wants("the script before the table", run_bytes("a", 1, "?\n", 2, 9, 68, 0), 2, 0, NULL);
    wants("the table before the journal buffer", run_bytes("a", 1, "N\n", 2, 9, 68, 0), 7, 0, NULL);
}

int main(void) {
    line_lengths();
    changed_lengths();
    journal_rooms();
    shorter_journals();
    joined_lengths();
    cuts_and_joins();
    globals();
    sixteen_globals();
    passed_lengths();
    passed_rooms();
    passed_sizes();
    sizes();
    nesting();
    work_areas();
    return checked();
}
