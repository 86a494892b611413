/*
 * Tests on a line and at EOF: every search of one to three strings, with and without N, that & and | join, with brackets and without, by IF, UL, WH and UT.
 * The line is `a`. What must come out is worked out here from each string's own result: at EOF a string is true if it has N.
 */
#include <stdint.h>
#include <stdio.h>
#include <string.h>

#include "../include/zed.h"
#include "check.h"

enum { LEAVES = 4, OPERATORS = 2, SHAPES = 3, LONGEST = 256 };

/* The strings of a search: their text, and their result on the line and at EOF. */
static const struct leaf {
    const char *text;
    int on_line, at_eof;
} leaves[LEAVES] = {{"/a/", 1, 0}, {"N/a/", 0, 1}, {"/b/", 0, 0}, {"N/b/", 1, 1}};

static const char operators[OPERATORS] = {'&', '|'};

/* A search as it is written, and its result on the line and at EOF. */
typedef struct search {
    char text[64];
    int result[2];
} search;

static int joined(int one, char operator, int other) {
    return operator == '&' ? one && other : one || other;
}

static int leaf_result(int leaf, int at_eof) {
    return at_eof ? leaves[leaf].at_eof : leaves[leaf].on_line;
}

static search of_one(int x) {
    search se = {"", {leaves[x].on_line, leaves[x].at_eof}};

    snprintf(se.text, sizeof se.text, "%s", leaves[x].text);
    return se;
}

static search of_two(int x, char p, int y) {
    search se;

    snprintf(se.text, sizeof se.text, "(%s %c %s)", leaves[x].text, p, leaves[y].text);
    for (int e = 0; e < 2; e++) se.result[e] = joined(leaf_result(x, e), p, leaf_result(y, e));
    return se;
}

/* Three strings: without inner brackets, where & binds more than |; with them round the first two; round the last two. */
static search of_three(int shape, int x, char p, int y, char q, int z) {
    static const char *forms[SHAPES] = {"(%s%c%s%c%s)", "((%s%c%s)%c%s)", "(%s%c(%s%c%s))"};
    int right_first = shape == 2 || (shape == 0 && p == '|' && q == '&');
    search se;

    snprintf(se.text, sizeof se.text, forms[shape], leaves[x].text, p, leaves[y].text, q, leaves[z].text);
    for (int e = 0; e < 2; e++) {
        int a = leaf_result(x, e), b = leaf_result(y, e), c = leaf_result(z, e);
        se.result[e] = right_first ? joined(a, p, joined(b, q, c)) : joined(joined(a, p, b), q, c);
    }
    return se;
}

/* The commands that insert a line each where the search is true (IF, WH) or false (UL, UT). */
static void add_tests(char *script, const char *se, char first) {
    sprintf(script + strlen(script), "IF %s IS/%c/\nUL %s IS/%c/\nWH %s (IS/%c/; AGP)\nUT %s (IS/%c/; AGP)\n", se, first, se, first + 1, se, first + 2, se,
            first + 3);
}

/* The lines that they insert, and the steps that they make: one a test, one a line inserted, one an AGP. */
static uint64_t add_lines(char *lines, int result, char first) {
    sprintf(lines + strlen(lines), "%c\n%c\n", result ? first : first + 1, result ? first + 2 : first + 3);
    return 4 + 2 + 1;
}

static void tested(search se) {
    static const uint8_t table[] = "a\n";
    static uint32_t work[2048];
    static uint8_t journal[1024], side[1024];
    char script[1024] = "", lines[LONGEST] = "";
    uint64_t steps = 0;
    zed_answer answer;
    size_t length = 0;

    add_tests(script, se.text, '1');
    steps += add_lines(lines, se.result[0], '1');
    strcat(script, "N\n");
    strcat(lines, "a\n");
    steps += 1;
    add_tests(script, se.text, '5');
    steps += add_lines(lines, se.result[1], '5');
    zed_run(table, 2, (const uint8_t *)script, strlen(script), UINT32_MAX, work, 2048, journal, sizeof journal, &answer);
    zed_new_side(journal, (size_t)answer.length, side, sizeof side, &length);
    check(se.text, answer.number == ZED_DONE && answer.steps == steps && answer.furthest == 2 && length == strlen(lines) && memcmp(side, lines, length) == 0);
}

static void three_strings(int x, int y) {
    for (int z = 0; z < LEAVES; z++)
        for (int shape = 0; shape < SHAPES; shape++)
            for (int p = 0; p < OPERATORS; p++)
                for (int q = 0; q < OPERATORS; q++) tested(of_three(shape, x, operators[p], y, operators[q], z));
}

/* The result at EOF of strings with more to them: the deepest brackets, every kind of qualifier. */
static void qualified(const char *text, int on_line, int at_eof) {
    search se = {"", {on_line, at_eof}};

    snprintf(se.text, sizeof se.text, "%s", text);
    tested(se);
}

int main(void) {
    for (int x = 0; x < LEAVES; x++) {
        tested(of_one(x));
        for (int y = 0; y < LEAVES; y++) {
            tested(of_two(x, '&', y));
            tested(of_two(x, '|', y));
            three_strings(x, y);
        }
    }
    qualified("((((((((N/b/))))))))", 1, 1);
    qualified("((((((((/a/))))))))", 1, 0);
    qualified("//", 1, 0);
    qualified("N//", 0, 1);
    qualified("P/a/", 1, 0);
    qualified("N P//", 1, 1);
    qualified("E//", 1, 0);
    qualified("2 N/a/", 1, 1);
    qualified("L W U S N/A/", 0, 1);
    qualified("_2,9_ N/a/", 1, 1);
    qualified("_2,65535_/a/", 0, 0);
    return checked();
}
