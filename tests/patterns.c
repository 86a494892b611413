/*
 * R (document 02, wish 9): which strings are patterns and where the others are ill-formed (34), which part of a line is taken, and what the commands do with it. Every byte
 * by itself and quoted at each place of short patterns, every string of up to five of a few signs, brackets of up to ten levels, patterns and matches as long as a line
 * allows, patterns and lines by chance under all qualifiers, 65,535 lines. What must come out is worked out here: a string is read with all places of the line that it can
 * come to, and it is ill-formed at the first byte after which no end tried makes it a pattern.
 */
#include <stdint.h>
#include <stdio.h>
#include <stdlib.h>
#include <string.h>

#include "../include/zed.h"
#include "check.h"
#include "runs.h"
#include "texts.h"

enum { FIRST = 32, LAST = 126, LINES = 65535, LONGEST = 255, DEEPEST = 8, ROUNDS = 6000 };

static const char signs[] = "|()~#-\"";

/* ---- what a pattern is, and which places of a line it comes to */

/* Places of a line, from 0 to its length. */
typedef struct places {
    char has[LONGEST + 2];
} places;

/* The text that is looked at, and how many bytes of it. */
static const char *text_at;
static size_t text_length;

/* Adds the other places; whether one of them is new. */
static int add_places(places *to, const places *other) {
    int grows = 0;

    for (size_t i = 0; i <= text_length; i++) {
        if (other->has[i] && !to->has[i]) to->has[i] = 1, grows = 1;
    }
    return grows;
}

static int kind(char b) {
    return b >= '0' && b <= '9' ? 1 : b >= 'A' && b <= 'Z' ? 2 : b >= 'a' && b <= 'z' ? 3 : 0;
}

/* Each of these reads a part of a pattern from p and goes on from all places in `at`; where it ends, or NULL where there is no such part. */
static const char *alternatives(const char *p, int deep, places *at);

static const char *one_byte(const char *p, places *at) {
    places next = {{0}};
    int mismatch = *p == '~', quoted;
    char first, last;

    p += mismatch;
    quoted = *p == '"';
    p += quoted;
    if (*p == '\0' || (!quoted && strchr(signs, *p) != NULL)) return NULL;
    first = last = *p++;
    if (!quoted && kind(first) != 0 && *p == '-') {
        last = p[1];
        if (kind(last) != kind(first) || last < first) return NULL;
        p += 2;
    }
    for (size_t i = 0; i < text_length; i++) next.has[i + 1] = at->has[i] && (text_at[i] >= first && text_at[i] <= last) != mismatch;
    *at = next;
    return p;
}

static const char *part(const char *p, int deep, places *at) {
    if (*p != '(') return one_byte(p, at);
    if (deep == DEEPEST) return NULL;
    p = alternatives(p + 1, deep + 1, at);
    return p != NULL && *p == ')' ? p + 1 : NULL;
}

static const char *item(const char *p, int deep, places *at) {
    const char *end;
    places now;

    if (*p != '#') return part(p, deep, at);
    do {
        now = *at;
        end = part(p + 1, deep, &now);
    } while (end != NULL && add_places(at, &now));
    return end;
}

static const char *row(const char *p, int deep, places *at) {
    while (p != NULL && *p != '\0' && *p != '|' && *p != ')') p = item(p, deep, at);
    return p;
}

static const char *alternatives(const char *p, int deep, places *at) {
    places from = *at;
    int some = 0;

    memset(at, 0, sizeof *at);
    for (;; p++) {
        places now = from;
        const char *end = row(p, deep, &now);
        if (end == NULL) return NULL;
        some = some || end > p;
        add_places(at, &now);
        p = end;
        if (*p != '|') return some ? p : NULL;
    }
}

static int is_pattern(const char *string) {
    places none = {{0}};
    const char *end;

    text_length = 0;
    end = alternatives(string, 0, &none);
    return end != NULL && *end == '\0';
}

/* Whether a pattern begins with the first n bytes: one byte more and up to eight brackets closed are enough to make one of them. */
static int goes_on(const char *string, size_t n) {
    static const char *const more[] = {"", "a", "z", "Z", "9"};
    char tried[LONGEST + 16];

    for (size_t i = 0; i < sizeof more / sizeof more[0]; i++) {
        memcpy(tried, string, n);
        strcpy(tried + n, more[i]);
        for (int closed = 0; closed <= DEEPEST; closed++, strcat(tried, ")")) {
            if (is_pattern(tried)) return 1;
        }
    }
    return 0;
}

/* The first byte that cannot stand there, the end included; -1 for a pattern. */
static int ill_formed(const char *string) {
    size_t n = strlen(string);

    if (is_pattern(string)) return -1;
    for (size_t i = 1; i <= n; i++) {
        if (!goes_on(string, i)) return (int)i - 1;
    }
    return (int)n;
}

/* ---- which part is taken */

/* Qualifiers as they are written, and what they ask: B, E or P, or 0; L; W; S; columns, or 0. */
typedef struct way {
    const char *said;
    char anchor;
    int last, apart, skip;
    size_t from, to;
} way;

static const way ways[] = {
    {"R", 0, 0, 0, 0, 0, 0},         {"LR", 0, 1, 0, 0, 0, 0},      {"r b", 'B', 0, 0, 0, 0, 0},       {"ER", 'E', 0, 0, 0, 0, 0},
    {"ReL", 'E', 1, 0, 0, 0, 0},     {"PR", 'P', 0, 0, 0, 0, 0},    {"RW", 0, 0, 1, 0, 0, 0},          {"W R L", 0, 1, 1, 0, 0, 0},
    {"BWR", 'B', 0, 1, 0, 0, 0},     {"WER", 'E', 0, 1, 0, 0, 0},   {"RPW", 'P', 0, 1, 0, 0, 0},       {"SR", 0, 0, 0, 1, 0, 0},
    {"RSP", 'P', 0, 0, 1, 0, 0},     {"RSB", 'B', 0, 0, 1, 0, 0},   {"_2,4_R", 0, 0, 0, 0, 2, 4},      {"R _3,3_L", 0, 1, 0, 0, 3, 3},
    {"_2,5_ERS", 'E', 0, 0, 1, 2, 5}, {"WR_2,6_", 0, 0, 1, 0, 2, 6}, {"LWRS_1,5_", 0, 1, 1, 1, 1, 5}, {"P_2,3_R", 'P', 0, 0, 0, 2, 3},
};

enum { WAYS = sizeof ways / sizeof ways[0] };

/* Sets of bytes that count for W: how they are named, and the bytes; NULL for letters and digits, which need no naming. */
static const struct set {
    const char *naming, *counts;
} sets[] = {{"", NULL}, {"WORD//\n", ""}, {"WORD/\"-a/\n", "-a"}, {"WORD/ :b/\n", " :b"}};

static int counts(const struct set *s, char b) {
    return s->counts == NULL ? kind(b) != 0 : strchr(s->counts, b) != NULL;
}

typedef struct found {
    int is;
    size_t i, j;
} found;

/* Whether the part from i to j is taken rather than the one that was best so far. */
static int is_better(const way *w, const found *best, size_t i, size_t j) {
    if (!best->is) return 1;
    if (w->last || w->anchor == 'E') return j > best->j || (j == best->j && i < best->i);
    return i < best->i || (i == best->i && j > best->j);
}

static size_t least(size_t a, size_t b) {
    return a < b ? a : b;
}

/* The part that is taken of a line whose window starts after p bytes. */
static found taken(const char *line, size_t p, const char *pattern, const way *w, const struct set *s) {
    size_t n = strlen(line), start = p, end = n;
    found best = {0, 0, 0};

    if (w->from > 0) {
        start = least(p > w->from - 1 ? p : w->from - 1, n);
        end = least(w->to, n);
        if (end < start) end = start;
    }
    while (w->skip && start < end && line[start] == ' ') start++;
    for (size_t i = start; i <= (w->anchor == 'B' || w->anchor == 'P' ? start : end); i++) {
        places at = {{0}};

        text_at = line;
        text_length = end;
        at.has[i] = 1;
        alternatives(pattern, 0, &at);
        for (size_t j = i; j <= end; j++) {
            if (!at.has[j] || ((w->anchor == 'E' || w->anchor == 'P') && j < end)) continue;
            if (w->apart && ((i > 0 && counts(s, line[i - 1])) || (j < n && counts(s, line[j])))) continue;
            if (is_better(w, &best, i, j)) best = (found){1, i, j};
        }
    }
    return best;
}

/* ---- runs */

static int is_journal(const struct outcome *o, const text *journal) {
    return o->answer.length == journal->length && memcmp(o->journal, journal->at, journal->length) == 0;
}

/* The script is refused with this number at this place. */
static int refuses(const char *script, uint64_t number, uint64_t place) {
    struct outcome o = run("a\n", script, UINT32_MAX, 99);
    int good = o.kept && o.answer.number == number && o.answer.place == place && o.answer.steps == 0 && o.answer.furthest == 0 && o.answer.length == 0;

    free(o.journal);
    return good;
}

/* A delimiter that the string does not have. */
static char free_delimiter(const char *string) {
    const char *d = "/!.:?,'*+";
    while (strchr(string, *d) != NULL) d++;
    return *d;
}

/* Lines of the bytes that short patterns are made of. */
static const char *const shorts[] = {"",   "a",  "5",   "-",  "|",  "aa",  "a5",  "5a",  "55",  "b",   "ba",  "ab",   "\"",  "~a", "#",  "(a)", "-a5", "a|5",
                                     "aaa", "a5a", "5a5", " a", "a ", "b5b", "aab", "a-a", "5--", "z",   "Z9",  "a55a"};

/* Every line in which the pattern is found gets an @ for what is taken; an ill-formed one is refused at its place. */
static int agrees_in(const char *pattern, const way *w, const struct set *s) {
    char d = free_delimiter(pattern), script[4 * LONGEST];
    text table = {0}, journal = {0};
    uint64_t lines = sizeof shorts / sizeof shorts[0], changed = 0, steps;
    int at = ill_formed(pattern), good;
    struct outcome o;

    snprintf(script, sizeof script, "%sRPT (IF %s%c%s%c E %s%c%s%c@%c; N; IFEOF AGP)\n", s->naming, w->said, d, pattern, d, w->said, d, pattern, d, d);
    if (at >= 0) {
        /* the empty pattern with W is refused before, at its opening delimiter */
        uint64_t place = strlen(s->naming) + strlen("RPT (IF ") + strlen(w->said);
        return w->apart && pattern[0] == '\0' ? refuses(script, ZED_BAD_QUALIFIER, place) : refuses(script, ZED_BAD_PATTERN, place + 1 + (uint64_t)at);
    }
    for (size_t l = 0; l < lines; l++) {
        found f = taken(shorts[l], 0, pattern, w, s);
        say(&table, shorts[l]), say(&table, "\n");
        say(&journal, f.is ? "<>" : "=="), say(&journal, shorts[l]), say(&journal, "\n");
        if (!f.is) continue;
        add(&journal, shorts[l], f.i), say(&journal, "@"), say(&journal, shorts[l] + f.j), say(&journal, "\n");
        changed++;
    }
    steps = (s->naming[0] != '\0') + 4 * lines + changed + 1;
    o = run(table.at, script, UINT32_MAX, 4096);
    good = o.kept && o.answer.number == ZED_DONE && o.answer.steps == steps && o.answer.furthest == lines + 1 && is_journal(&o, &journal);
    if (!good) printf("%s", script);
    free(o.journal), free(table.at), free(journal.at);
    return good;
}

static int agrees(const char *pattern) {
    return agrees_in(pattern, &ways[0], &sets[0]);
}

/* ---- one byte at each place of short patterns */

/* Here an @ is the byte; a line that has it in each way is in the table of single bytes below. */
static const char *const short_patterns[] = {"@",   "a@",  "@a",   "5@a",  "(@)",   "(@|a)", "(a|@)", "(a@)", "#@",  "#(@)", "~@",   "#~@",  "a|@",   "@|a", "|@",
                                             "@-5", "a-@", "@-@",  "@-z",  "5-@",   "A-@",   "@-",    "-@",   "a-b@", "~a@",  "#a@",  "(a)@", "#(a)@", "\"a@", "~(@)",
                                             "(@",  "@)",  "@@",   "#@-5", "~@-z",  "#~5-@", "(|@)",  "@|",   "((@)a)", "#(#@)", "##@", "~~@",  "~#@"};

static void byte_at(char b) {
    char name[64];
    int good = 1;

    for (size_t i = 0; i < sizeof short_patterns / sizeof short_patterns[0]; i++) {
        for (int quoted = 0; quoted < 2; quoted++) {
            text pattern = {0};
            for (const char *c = short_patterns[i]; *c != '\0'; c++) {
                if (*c == '@' && quoted) say(&pattern, "\"");
                add(&pattern, *c == '@' ? &b : c, 1);
            }
            good = agrees(pattern.at) && good;
            free(pattern.at);
        }
    }
    snprintf(name, sizeof name, "byte %d at each place of short patterns", b);
    check(name, good);
}

/* Every byte in a line of its own; the byte alone, quoted, mismatched and as often as may be. */
static void alone(char b) {
    static const char *const forms[] = {"%s", "~%s", "#%s", "#~%s"};
    char name[64];
    int good = 1;

    for (size_t form = 0; form < sizeof forms / sizeof forms[0]; form++) {
        char said[3] = {b, '\0', '\0'}, pattern[8], script[64], d;
        text table = {0}, journal = {0};
        struct outcome o;

        if (strchr(signs, b) != NULL) said[0] = '"', said[1] = b;
        snprintf(pattern, sizeof pattern, forms[form], said);
        d = free_delimiter(pattern);
        snprintf(script, sizeof script, "RPT (IF PR%c%s%c E//+/; N; IFEOF AGP)\n", d, pattern, d);
        for (int c = FIRST; c <= LAST; c++) {
            char line[16];
            int fits = (c == b) == (form == 0 || form == 2);
            snprintf(line, sizeof line, "%c\n", c);
            say(&table, line);
            say(&journal, fits ? "<>" : "=="), say(&journal, line);
            if (fits) say(&journal, "+"), say(&journal, line);
        }
        o = run(table.at, script, UINT32_MAX, 4096);
        good = good && o.kept && o.answer.number == ZED_DONE && is_journal(&o, &journal);
        free(o.journal), free(table.at), free(journal.at);
    }
    snprintf(name, sizeof name, "byte %d alone", b);
    check(name, good);
}

/* ---- every string of a few signs */

static const char few[] = "a5|(#~)-\"";

/* All strings that begin with this one and have up to so many signs more. */
static int all_from(char *string, size_t n, size_t more) {
    int good;

    string[n] = '\0';
    good = agrees(string);
    for (size_t i = 0; more > 0 && i < sizeof few - 1; i++) {
        string[n] = few[i];
        good = all_from(string, n + 1, more - 1) && good;
    }
    return good;
}

static void short_strings(void) {
    char string[8], name[64];

    check("the empty pattern", agrees(""));
    for (size_t i = 0; i < sizeof few - 1; i++) {
        string[0] = few[i];
        snprintf(name, sizeof name, "strings of up to five signs from %c", few[i]);
        check(name, all_from(string, 1, 4));
    }
}

/* ---- brackets */

static void deep_brackets(void) {
    static const char *const opening[] = {"(", "#(", "a(", "(|", "|(", "#a(", "~a#(", "(5|a"};
    static const char *const inner[] = {"a", "#a", "a|5", "", "~5"};

    for (size_t o = 0; o < sizeof opening / sizeof opening[0]; o++) {
        for (int levels = DEEPEST - 1; levels <= DEEPEST + 2; levels++) {
            char name[64];
            int good = 1;
            for (size_t i = 0; i < sizeof inner / sizeof inner[0]; i++) {
                for (int closed = levels - 1; closed <= levels + 1; closed++) {
                    char pattern[LONGEST] = "";
                    for (int l = 0; l < levels; l++) strcat(pattern, opening[o]);
                    strcat(pattern, inner[i]);
                    for (int l = 0; l < closed; l++) strcat(pattern, ")");
                    good = agrees(pattern) && good;
                }
            }
            snprintf(name, sizeof name, "%d levels of %s", levels, opening[o]);
            check(name, good);
        }
    }
    check("brackets side by side", agrees("(a)(5)((a)|(b))((((((((a))))))))((((((((5))))))))|((a|5)(a|5)#(a|5))"));
    /* brackets of groups, of searches and of patterns are counted apart */
    check("all brackets at their deepest", refuses("((((((((((((((((IF ((((((((R/((((((((a-))))))))/)))))))) N))))))))))))))))\n", ZED_BAD_PATTERN, 39));
    check("the ninth is 34", refuses("((((((((((((((((IF ((((((((R/(((((((((a)))))))))/)))))))) N))))))))))))))))\n", ZED_BAD_PATTERN, 37));
}

/* ---- one line */

/* What is done with the part that is taken: A, B or E of text @, and whether the window moves; then a ! is put where the window starts. */
static const char *const commands[] = {"A", "B", "E", "AP", "BP", "EP", "PA", "PB", "SA", "SB"};

enum { COMMANDS = sizeof commands / sizeof commands[0] };

/* The journal after a command on the line, and after B//!/. */
static void say_journal(text *journal, const char *line, size_t p, const char *command, found f) {
    text now = {0};
    size_t window = p, cut = command[1] == 'A' ? f.j : f.i;
    int moves = command[0] == 'P', cuts = command[0] == 'S';

    say(&now, "");
    if (cuts) {
        say(journal, "++"), add(journal, line, cut), say(journal, "\n");
        say(&now, line + cut);
        window = 0;
    } else if (moves) {
        say(&now, line);
        window = cut;
    } else {
        add(&now, line, command[0] == 'A' ? f.j : f.i);
        say(&now, "@");
        say(&now, line + (command[0] == 'B' ? f.i : f.j));
        if (command[1] == 'P') window = (command[0] == 'E' ? f.i : f.j) + 1;
    }
    say(journal, "<>"), say(journal, line), say(journal, "\n");
    add(journal, now.at, window), say(journal, "!"), say(journal, now.at + window), say(journal, "\n");
    free(now.at);
}

/* The command with a pattern on a line, its window after p bytes; a string that is no pattern is refused. */
static int does_command(const char *line, size_t p, const char *pattern, const way *w, const struct set *s, const char *command) {
    char d = free_delimiter(pattern), script[4 * LONGEST], table[LONGEST + 2];
    int two = command[0] != 'P' && command[0] != 'S', ill = ill_formed(pattern), good;
    uint64_t place = strlen(s->naming), steps = (s->naming[0] != '\0') + 2 * (uint64_t)p + 1;
    text journal = {0};
    struct outcome o;
    found f;

    place += (uint64_t)snprintf(script, sizeof script, "%s%d>\n", s->naming, (int)p) - place;
    snprintf(script + place, sizeof script - place, "%s %s%c%s%c%s\nB//!/\n", command, w->said, d, pattern, d, two ? "@" : "");
    if (ill >= 0) return refuses(script, ZED_BAD_PATTERN, place + strlen(command) + 1 + strlen(w->said) + 1 + (uint64_t)ill);
    snprintf(table, sizeof table, "%s\n", line);
    o = run(table, script, UINT32_MAX, 4096);
    f = taken(line, p, pattern, w, s);
    if (f.is) {
        say_journal(&journal, line, p, command, f);
        good = o.answer.number == ZED_DONE && o.answer.steps == steps + 1 && o.answer.place == 0;
    } else {
        say(&journal, "=="), say(&journal, table);
        good = o.answer.number == ZED_NO_MATCH && o.answer.steps == steps && o.answer.place == place;
    }
    good = good && o.kept && o.answer.furthest == 1 && is_journal(&o, &journal);
    if (!good) printf("%s%s", table, script);
    free(o.journal), free(journal.at);
    return good;
}

/* A test with a pattern on a line, with and without N: a line is put in where it is true. */
static int does_test(const char *line, size_t p, const char *pattern, const way *w, const struct set *s, int negated) {
    char d = free_delimiter(pattern), script[4 * LONGEST], table[LONGEST + 2], want[2 * LONGEST];
    int is = taken(line, p, pattern, w, s).is != negated, good;
    uint64_t steps = (s->naming[0] != '\0') + 2 * (uint64_t)p + 1 + (uint64_t)is;
    struct outcome o;

    snprintf(script, sizeof script, "%s%d>; IF %s%s%c%s%c IS/+/\n", s->naming, (int)p, negated ? "N" : "", w->said, d, pattern, d);
    snprintf(table, sizeof table, "%s\n", line);
    snprintf(want, sizeof want, "%s==%s", is ? "+++\n" : "", table);
    o = run(table, script, UINT32_MAX, 4096);
    good = o.kept && o.answer.number == ZED_DONE && o.answer.steps == steps && o.answer.length == strlen(want) && memcmp(o.journal, want, o.answer.length) == 0;
    if (!good) printf("%s%s", table, script);
    free(o.journal);
    return good;
}

/* ---- patterns and lines by chance */

static uint32_t chance_at = 1;

/* A number below n. */
static size_t chance(size_t n) {
    chance_at = chance_at * 1664525u + 1013904223u;
    return (chance_at >> 8) % n;
}

static void say_one(text *t) {
    static const char *const ones[] = {"a", "a", "a", "b", "5", "-", " ", "|", "#", ":", "a-b", "0-9", "a-z", "5-5", "A-Z"};
    const char *x = ones[chance(sizeof ones / sizeof ones[0])];

    if (strlen(x) == 1 && (strchr(signs, *x) != NULL || chance(6) == 0)) say(t, "\"");
    say(t, x);
}

static void say_alternatives(text *t, int deep) {
    size_t rows = chance(3) == 0 ? 2 + chance(2) : 1, full = chance(rows);

    for (size_t r = 0; r < rows; r++) {
        if (r > 0) say(t, "|");
        for (size_t i = r == full ? 1 + chance(3) : chance(4); i > 0; i--) {
            if (chance(3) == 0) say(t, "#");
            if (deep < DEEPEST && t->length < 40 && chance(4) == 0) {
                say(t, "(");
                say_alternatives(t, deep + 1);
                say(t, ")");
            } else {
                if (chance(6) == 0) say(t, "~");
                say_one(t);
            }
        }
    }
}

static void any_line(char *line, size_t most) {
    static const char bytes[] = "aaaab5- |#:A";
    size_t n = chance(most + 1);

    for (size_t i = 0; i < n; i++) line[i] = bytes[chance(sizeof bytes - 1)];
    line[n] = '\0';
}

static void by_chance(void) {
    for (int w = 0; w < WAYS; w++) {
        char name[64];
        int good = 1;
        for (int i = 0; i < ROUNDS / WAYS; i++) {
            const struct set *s = &sets[ways[w].apart ? chance(sizeof sets / sizeof sets[0]) : 0];
            text pattern = {0};
            char line[LONGEST + 1];
            size_t p;

            say_alternatives(&pattern, 0);
            /* one in eight has a sign more, which may make it ill-formed */
            if (chance(8) == 0) pattern.at[chance(pattern.length)] = signs[chance(sizeof signs - 1)];
            /* the pattern stands twice in that script's line, which has room for 255 bytes */
            if (chance(8) == 0 && pattern.length < 80) good = agrees_in(pattern.at, &ways[w], s) && good;
            any_line(line, 12);
            p = chance(3) == 0 ? chance(strlen(line) + 1) : 0;
            good = does_command(line, p, pattern.at, &ways[w], s, commands[chance(COMMANDS)]) && good;
            if (is_pattern(pattern.at)) good = does_test(line, p, pattern.at, &ways[w], s, (int)chance(2)) && good;
            free(pattern.at);
        }
        snprintf(name, sizeof name, "by chance under %s", ways[w].said);
        check(name, good);
    }
}

/* ---- as long as a line allows */

/* `part` again and again, cut at n bytes, and then `last`. */
static void repeated(char *string, const char *part, size_t n, const char *last) {
    size_t before = n - strlen(last);

    for (size_t i = 0; i < before; i++) string[i] = part[i % strlen(part)];
    strcpy(string + before, last);
}

/* F with a pattern of so many bytes and no closing delimiter, on one line: found, not found, ill-formed at its place, or a script's line too long. */
static int finds(const char *pattern, const char *line) {
    char script[2 * LONGEST], table[LONGEST + 2];
    int ill, good;
    struct outcome o;

    snprintf(script, sizeof script, "F R/%s\n", pattern);
    if (strlen(script) > LONGEST + 1) return refuses(script, ZED_SCRIPT_MALFORMED, 0);
    ill = ill_formed(pattern);
    if (ill >= 0) return refuses(script, ZED_BAD_PATTERN, 4 + (uint64_t)ill);
    snprintf(table, sizeof table, "%s\n", line);
    o = run(table, script, UINT32_MAX, 4096);
    good = o.kept && o.answer.number == (taken(line, 0, pattern, &ways[0], &sets[0]).is ? ZED_DONE : ZED_MET_EOF);
    free(o.journal);
    return good;
}

static void long_patterns(void) {
    static const char *const parts[] = {"a", "#a", "a|", "a-z", "\"|", "(a)", "#(a)", "~5", "#~5", "(a|5)#(5|a)", "#(#(#a))", "(a|)", "(a#(5|", "#(#(#(#(#(#(#(#(a"};
    static const char *const lasts[] = {"", "a", "#", "(", ")", "~", "-", "\"", "|", "a-", "a-b"};

    for (size_t i = 0; i < sizeof parts / sizeof parts[0]; i++) {
        char pattern[LONGEST + 1], line[LONGEST + 1], name[64];
        int good = 1;
        for (size_t n = 246; n <= 252; n++) {
            for (size_t l = 0; l < sizeof lasts / sizeof lasts[0]; l++) {
                repeated(pattern, parts[i], n, lasts[l]);
                repeated(line, "a5", n + 3, "");
                good = finds(pattern, line) && good;
                repeated(line, "a", 252, "");
                good = finds(pattern, line) && good;
            }
            /* E R, the pattern, and text @ fill the line at 249 bytes */
            if (n <= 249) {
                repeated(pattern, parts[i], n, "");
                repeated(line, "a", 251, "");
                good = does_command(line, 0, pattern, &ways[0], &sets[0], "E") && does_command("aa5", 0, pattern, &ways[0], &sets[0], "E") && good;
            }
        }
        snprintf(name, sizeof name, "%s and so on", parts[i]);
        check(name, good);
    }
}

/* Lines that the @ and the ! fill to 255 bytes, or one short of it; they are matched as a whole, at their end, and by nothing at all. */
static void long_lines(void) {
    static const char *const patterns[] = {"#a", "a#a", "#(aa)", "#(a|aa)", "#(#a)", "~b#(~b)", "b|", "a|aaa", "aaa#(aaa)", "#(aaaaa)aaaa", "a#(b|)"};

    for (size_t i = 0; i < sizeof patterns / sizeof patterns[0]; i++) {
        for (int w = 0; w < WAYS; w++) {
            char name[64];
            int good = 1;
            for (size_t n = 252; n <= 253; n++) {
                char line[LONGEST + 1];
                repeated(line, "a", n, "");
                /* the commands in turn */
                good = does_command(line, 0, patterns[i], &ways[w], &sets[0], commands[(i + (size_t)w + n) % COMMANDS]) && good;
            }
            snprintf(name, sizeof name, "long lines, %s/%s/", ways[w].said, patterns[i]);
            check(name, good);
        }
    }
}

/* ---- many lines */

static int over_many(const text *lines, const char *script, uint64_t steps, uint64_t furthest, const text *journal) {
    int good = 1;

    for (size_t more = 0; more <= 64; more += 64) {
        struct outcome o = run_bytes(lines->at, lines->length, script, strlen(script), UINT32_MAX, 2 * strlen(script) + 64 + more, journal->length + more);
        good = good && o.kept && o.answer.number == ZED_DONE && o.answer.steps == steps && o.answer.furthest == furthest && is_journal(&o, journal);
        free(o.journal);
    }
    return good;
}

/* 65,535 lines, in two of three a time: each is changed; then one that is found from the first line, deleting, and from the last. */
static void every_line(void) {
    static const char time[] = "0-9#0-9:0-90-9", other[] = "0-9#0-9:9#~ ";
    text lines = {0}, changed = {0}, forward = {0}, deleting = {0}, backward = {0};
    char line[32], record[80], script[128];
    uint64_t times = 0;

    for (int i = 0; i < LINES; i++) {
        int ends = i == 0 || i == LINES - 1, has = i % 3 > 0;
        if (ends)
            snprintf(line, sizeof line, "12:9x");
        else
            snprintf(line, sizeof line, has ? "at %d:%02d." : "at %d.%02d.", i / 60 % 24, i % 60);
        say(&lines, line), say(&lines, "\n");
        snprintf(record, sizeof record, has && !ends ? "<>%s\nat T.\n" : "==%s\n", line);
        times += has && !ends;
        say(&changed, record);
        snprintf(record, sizeof record, "==%s\n", line);
        if (i < LINES - 1) say(&forward, record);
        say(&backward, i == 0 ? "<>12:9x\n+\n" : record);
        if (i > 0) record[0] = record[1] = '-';
        if (i < LINES - 1) say(&deleting, record);
    }
    say(&forward, "<>12:9x\n+\n"), say(&deleting, "<>12:9x\n+\n");
    snprintf(script, sizeof script, "RPT (IF R/%s/ E R/%s/T/; N; IFEOF AGP)\n", time, time);
    check("a time in every line", over_many(&lines, script, 4 * (uint64_t)LINES + times + 1, LINES + 1, &changed));
    snprintf(script, sizeof script, "N; F BR/%s/; E R/%s/+/\n", other, other);
    check("forward to the last line", over_many(&lines, script, 2 + 1 + LINES - 1, LINES, &forward));
    snprintf(script, sizeof script, "N; DF PR/%s/; E R/%s/+/\n", other, other);
    check("deleting to the last line", over_many(&lines, script, 2 + 1 + LINES - 1, LINES, &deleting));
    snprintf(script, sizeof script, "M *; 2P; BF ER/%s/; E R/%s/+/\n", other, other);
    check("backward to the first line", over_many(&lines, script, 7 + LINES - 1, LINES + 1, &backward));
    free(lines.at), free(changed.at), free(forward.at), free(deleting.at), free(backward.at);
}

/* ---- by hand */

#define TWENTY_FIVE_A "aaaaaaaaaaaaaaaaaaaaaaaaa"
#define HUNDRED_A TWENTY_FIVE_A TWENTY_FIVE_A TWENTY_FIVE_A TWENTY_FIVE_A
#define FULL HUNDRED_A HUNDRED_A TWENTY_FIVE_A TWENTY_FIVE_A "aaaaa"

static const struct job {
    const char *table, *script;
    uint64_t number, steps, furthest, place;
    const char *journal;
} jobs[] = {
    /* the worked cases of the wish */
    {"at 06:10 x\n", "E R/0-9#0-9:0-9#0-9/T/\n", 0, 1, 1, 0, "<>at 06:10 x\nat T x\n"},
    {"baa\n", "E R/#a/x/\n", 0, 1, 1, 0, "<>baa\nxbaa\n"},
    {"baab\n", "E LR/#a/x/\n", 0, 1, 1, 0, "<>baab\nbaabx\n"},
    {"abab\n", "E LR/b|bab/x/\n", 0, 1, 1, 0, "<>abab\nax\n"},
    {"a-ab\n", "E WR/a#(a|\"-)/x/\n", 0, 1, 1, 0, "<>a-ab\nx-ab\n"},
    {"a\n", "E R/a-Z/x/\n", 34, 0, 0, 6, ""},
    {"a\n", "F WR//\n", 4, 0, 0, 4, ""},
    {"a\n", "F R//\n", 34, 0, 0, 4, ""},
    /* where R may stand: once, in either case, anywhere among the qualifiers, not with U or a count */
    {"a\n", "F rWsLN_1,2_/b/\n", 0, 2, 1, 0, "==a\n"},
    {"a\n", "F RR/a/\n", 4, 0, 0, 3, ""},
    {"a\n", "F RrR/a/\n", 4, 0, 0, 3, ""},
    {"a\n", "F RU/a/\n", 4, 0, 0, 3, ""},
    {"a\n", "F UR/a/\n", 4, 0, 0, 3, ""},
    {"a\n", "F R 2/a/\n", 4, 0, 0, 4, ""},
    {"a\n", "F 2 R/a/\n", 4, 0, 0, 4, ""},
    {"a\n", "F R0/a/\n", 3, 0, 0, 3, ""},
    {"a\n", "F R65536/a/\n", 3, 0, 0, 3, ""},
    {"a\n", "F RBL/a/\n", 4, 0, 0, 4, ""},
    {"a\n", "E NR/a/b/\n", 4, 0, 0, 2, ""},
    {"a\n", "F RX/a/\n", 3, 0, 0, 3, ""},
    /* the first fault counts */
    {"a\n", "F R/)/; F U R/(/\n", 34, 0, 0, 4, ""},
    {"a\n", "F UR/)/; F R/)/\n", 4, 0, 0, 3, ""},
    {"a\n", "WORD/-/; F R/)/\n", 33, 0, 0, 5, ""},
    {"a\n", "F R/)/; WORD/-/\n", 34, 0, 0, 4, ""},
    {"a\n", "(F R/(/\n", 34, 0, 0, 6, ""},
    {"a\n", "F (R/a/ | R/(/\n", 34, 0, 0, 13, ""},
    {"a\n", "0(E R/a||#/b/)\n", 34, 0, 0, 10, ""},
    /* the end is the closing or the middle delimiter, or the line's */
    {"a\n", "E R:(a:b:\n", 34, 0, 0, 6, ""},
    {"a\n", "E R:a#\n", 34, 0, 0, 6, ""},
    {"a\n", "F R-a-\n", 0, 2, 1, 0, "==a\n"},
    {"a\n", "F R-#-a-\n", 34, 0, 0, 5, ""},
    /* second strings and those of IS, CL, GE, GA, GB and WORD are no patterns */
    {"a\nb\n", "E R/a/(#/; IS/~/; CL/|)/\n", 0, 3, 2, 0, "++~\n<>a\n(#|)b\n--b\n"},
    {"x\na#a\n", "GE/a#/(/; WORD/(/; N; E R/a|x/)/\n", 0, 4, 2, 0, "==x\n<>a#a\n()\n"},
    /* with N; at EOF it is true there */
    {"ab\nb\n", "F NR/a/; IS/1/; N; IF NR/a/ IS/2/\n", 0, 7, 3, 0, "==ab\n++1\n==b\n++2\n"},
    {"ab\nb\n", "M *; IF R/#a/ IS/1/; UL R/a/ IS/2/\n", 0, 4, 3, 0, "==ab\n==b\n++2\n"},
    /* an empty match at each command */
    {"ab\n", "PA R/#x/; E/a/b/\n", 0, 2, 1, 0, "<>ab\nbb\n"},
    {"ab\n", "SA LR/#x/\n", 0, 1, 1, 0, "++ab\n<>ab\n\n"},
    {"ab\n", "SB R/#x/\n", 0, 1, 1, 0, "++\n==ab\n"},
    {"\n", "EP R/#x/y/; E//z/\n", 0, 2, 1, 0, "<>\nyz\n"},
    {"a b\n", "E WR/#x/-/\n", 24, 1, 1, 0, "==a b\n"},
    {"a  b\n", "E WR/#x/-/\n", 0, 1, 1, 0, "<>a  b\na - b\n"},
    {"ab\n", "WORD//; E WR/#x/-/\n", 0, 2, 1, 0, "<>ab\n-ab\n"},
    /* a line of 255 bytes, matched as a whole or by nothing at its end */
    {FULL "\n", "E PR/#a/b/\n", 0, 1, 1, 0, "<>" FULL "\nb\n"},
    {FULL "\n", "E LR/#b//\n", 0, 1, 1, 0, "==" FULL "\n"},
    {FULL "\n", "SA ER/#(aa)/\n", 0, 1, 1, 0, "++" FULL "\n<>" FULL "\n\n"},
    {FULL "\n", "PA R/#a/; PB BR/#a/; E R/|b/c/\n", 25, 3, 1, 21, "==" FULL "\n"},
    {FULL "\n", "PA R/a#a/; > \n", 27, 2, 1, 11, "==" FULL "\n"},
    /* nothing stands at EOF */
    {"a\n", "N; E R/#a/b/\n", 20, 2, 2, 3, "==a\n"},
};

static void does(const struct job *job) {
    struct outcome o = run(job->table, job->script, 99, 999);

    check(job->script, o.kept && o.answer.number == job->number && o.answer.steps == job->steps && o.answer.furthest == job->furthest && o.answer.place == job->place &&
                           o.answer.length == strlen(job->journal) && memcmp(o.journal, job->journal, o.answer.length) == 0);
    free(o.journal);
}

/* 34 beside the other refusals: by place among 2 to 6 and 33, after 1 and 8, before 7 and 9. */
static void ranked(void) {
    struct outcome o;

    check("1 before 34", refuses("F R/)/", ZED_SCRIPT_MALFORMED, 0));
    o = run_bytes("a\n", 2, "F R/)/\n", 7, 9, 2 * 7 + 63, 99);
    check("8 before 34", o.kept && o.answer.number == ZED_WORK_SHORT && o.answer.place == 0);
    free(o.journal);
    o = run("a", "F R/)/\n", 9, 99);
    check("34 before 7", o.kept && o.answer.number == ZED_BAD_PATTERN && o.answer.place == 4);
    free(o.journal);
    o = run("a\n", "F R/)/\n", 9, 3);
    check("34 before 9", o.kept && o.answer.number == ZED_BAD_PATTERN && o.answer.place == 4);
    free(o.journal);
}

int main(void) {
    for (size_t i = 0; i < sizeof jobs / sizeof jobs[0]; i++) does(&jobs[i]);
    ranked();
    for (int b = FIRST; b <= LAST; b++) alone((char)b);
    for (int b = FIRST; b <= LAST; b++) byte_at((char)b);
    short_strings();
    deep_brackets();
    by_chance();
    long_patterns();
    long_lines();
    every_line();
    return checked();
}
