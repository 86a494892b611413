/*
 * WORD (document 02, wish 8): which bytes count for W, seen through W for every byte from 32 to 126 before and after a string. Strings of one byte, each byte quoted,
 * every x-y, every two bytes, every string of up to five of a few signs; strings as long as a script's line allows; each delimiter; sets that change in loops, that stand
 * over a table of 65,535 lines, and that stand beside globals. What must come out is worked out here, the signs of the kinds being written out in their order.
 */
#include <stdint.h>
#include <stdio.h>
#include <stdlib.h>
#include <string.h>

#include "../include/zed.h"
#include "check.h"
#include "runs.h"
#include "texts.h"

enum { FIRST = 32, LAST = 126, BYTES = 128, LINES = 65535, SCRIPT = 16384, LONGEST = 255 };

static const char delimiters[] = "!'*+,-./:?";
static const char *const kinds[] = {"0123456789", "ABCDEFGHIJKLMNOPQRSTUVWXYZ", "abcdefghijklmnopqrstuvwxyz"};

/* The signs of the kind that a byte is of; NULL where it is of none. */
static const char *kind(char b) {
    for (size_t i = 0; i < sizeof kinds / sizeof kinds[0]; i++)
        if (b != '\0' && strchr(kinds[i], b) != NULL) return kinds[i];
    return NULL;
}

/* The bytes that count. */
typedef struct set {
    char has[BYTES];
} set;

static void count_one(set *s, char b) {
    s->has[(unsigned char)b] = 1;
}

/* Those from x to y of one kind; 0 where there is no such range. */
static int count_range(set *s, char x, char y) {
    const char *all = kind(x), *to = all == NULL || y == '\0' ? NULL : strchr(all, y);

    if (to == NULL || to < strchr(all, x)) return 0;
    for (const char *at = strchr(all, x); at <= to; at++) count_one(s, *at);
    return 1;
}

static set letters_and_digits(void) {
    set s = {{0}};
    for (size_t i = 0; i < sizeof kinds / sizeof kinds[0]; i++)
        for (const char *at = kinds[i]; *at != '\0'; at++) count_one(&s, *at);
    return s;
}

/* What a string names; the place of the first - or " that is misused, or -1. */
static int named(const char *string, set *s) {
    size_t n = strlen(string), i = 0;

    memset(s, 0, sizeof *s);
    while (i < n) {
        /* past the end there is a 0 */
        char x = string[i], next = string[i + 1];
        if (x == '-' || (x == '"' && next == '\0')) return (int)i;
        if (x == '"') {
            count_one(s, next);
            i += 2;
        } else if (next != '-') {
            count_one(s, x);
            i += 1;
        } else {
            if (!count_range(s, x, string[i + 2])) return (int)i + 1;
            i += 3;
        }
    }
    return -1;
}

/* For every byte a line with it before @, and one with it after. */
static char table[2 * (LAST - FIRST + 1) * 3 + 1];

static void make_table(void) {
    char *at = table;
    for (int b = FIRST; b <= LAST; b++) at += sprintf(at, "%c@\n@%c\n", b, b);
}

/* Every line in which @ is found gets a + at its start. */
static const char marking[] = "RPT (IF W/@/ E//+/; N; IFEOF AGP)\n";
static const char marking_any_case[] = "RPT (IF UW/@/ E//+/; N; IFEOF AGP)\n";

/* The journal of that, where these bytes count; how many lines are changed. */
static int marked(const set *s, text *journal) {
    int changed = 0;

    for (int b = FIRST; b <= LAST; b++) {
        char lines[32];
        if (s->has[b]) {
            snprintf(lines, sizeof lines, "==%c@\n==@%c\n", b, b);
        } else {
            snprintf(lines, sizeof lines, "<>%c@\n+%c@\n<>@%c\n+@%c\n", b, b, b, b);
            changed += 2;
        }
        say(journal, lines);
    }
    return changed;
}

static int is_journal(const struct outcome *o, const text *journal) {
    return o->answer.length == journal->length && memcmp(o->journal, journal->at, journal->length) == 0;
}

/* A script that names the set, then the marking: these bytes count, in so many steps for the naming. */
static int counts(const char *naming, uint64_t steps, const set *s) {
    int good = 1;

    for (int folds = 0; folds < 2; folds++) {
        text script = {0}, journal = {0};
        struct outcome o;
        uint64_t lines = 2 * (LAST - FIRST + 1), changed;

        say(&script, naming);
        say(&script, folds ? marking_any_case : marking);
        changed = (uint64_t)marked(s, &journal);
        o = run(table, script.at, UINT32_MAX, 8192);
        good = good && o.kept && o.answer.number == ZED_DONE && o.answer.steps == steps + 4 * lines + changed + 1 && o.answer.furthest == lines + 1 && is_journal(&o, &journal);
        free(o.journal), free(script.at), free(journal.at);
    }
    return good;
}

/* The script is refused with this number at this place. */
static int refuses(const char *script, uint64_t number, uint64_t place) {
    struct outcome o = run(table, script, UINT32_MAX, 8192);
    int good = o.kept && o.answer.number == number && o.answer.place == place && o.answer.steps == 0 && o.answer.furthest == 0 && o.answer.length == 0;

    free(o.journal);
    return good;
}

/* A delimiter that the string does not have. */
static char free_delimiter(const char *string) {
    const char *d = "/.:!?,'*+";
    while (strchr(string, *d) != NULL) d++;
    return *d;
}

/* WORD with this string, its delimiters and a line end. */
static void naming_of(const char *string, char *script, size_t room) {
    char d = free_delimiter(string);
    snprintf(script, room, "WORD%c%s%c\n", d, string, d);
}

/* WORD with this string names what the rule above says, or is refused with 33 where it says so. */
static int agrees(const char *string) {
    char script[LONGEST + 2];
    set s;
    int misused = named(string, &s);

    naming_of(string, script, sizeof script);
    return misused < 0 ? counts(script, 1, &s) : refuses(script, ZED_BAD_WORD_SET, 5 + (uint64_t)misused);
}

/* Just this byte counts. */
static int counts_alone(const char *naming, char b) {
    set s = {{0}};
    count_one(&s, b);
    return counts(naming, 1, &s);
}

/* A byte by itself and quoted: it alone counts; a - or a " by itself is misused. */
static void one_byte(char b) {
    char string[2] = {b, '\0'}, quoted[3] = {'"', b, '\0'}, script[32], name[48];
    int good;

    naming_of(string, script, sizeof script);
    good = b == '-' || b == '"' ? refuses(script, ZED_BAD_WORD_SET, 5) : counts_alone(script, b);
    naming_of(quoted, script, sizeof script);
    good = good && counts_alone(script, b);
    snprintf(name, sizeof name, "byte %d by itself and quoted", b);
    check(name, good);
}

/* x-y, where both are of one kind and y is not the lower one, is all from x to y; else the - is misused. */
static void ranges_from(char x) {
    char string[4] = {x, '-', '\0', '\0'}, script[32], name[48];
    int good = 1;

    for (size_t i = 0; i < sizeof kinds / sizeof kinds[0]; i++) {
        for (const char *y = kinds[i]; *y != '\0'; y++) {
            set s = {{0}};
            string[2] = *y;
            naming_of(string, script, sizeof script);
            if (count_range(&s, x, *y))
                good = good && x <= *y && counts(script, 1, &s);
            else
                good = good && (x > *y || kind(x) != kinds[i]) && refuses(script, ZED_BAD_WORD_SET, 6);
        }
    }
    snprintf(name, sizeof name, "ranges from %c", x);
    check(name, good);
}

/* Every second byte after this one, and every third after it and a -. */
static void two_and_three(char b) {
    char two[3] = {b, '\0', '\0'}, three[4] = {b, '-', '\0', '\0'}, name[48];
    int good = 1;

    for (int c = FIRST; c <= LAST; c++) {
        two[1] = (char)c;
        three[2] = (char)c;
        good = good && agrees(two) && agrees(three);
    }
    snprintf(name, sizeof name, "two bytes, and three with a -, from byte %d", b);
    check(name, good);
}

static const char signs[] = "acB-\" ";

/* All strings that begin with this one and have up to so many signs more. */
static int all_from(char *string, size_t n, size_t more) {
    int good;

    string[n] = '\0';
    good = agrees(string);
    for (size_t i = 0; more > 0 && i < sizeof signs - 1; i++) {
        string[n] = signs[i];
        good = all_from(string, n + 1, more - 1) && good;
    }
    return good;
}

static void short_strings(void) {
    char string[8], name[48];

    check("no string but the empty one", agrees(""));
    for (size_t i = 0; i < sizeof signs - 1; i++) {
        string[0] = signs[i];
        snprintf(name, sizeof name, "strings of up to five signs from %c", signs[i]);
        check(name, all_from(string, 1, 4));
    }
}

/* Between two of each delimiter: all bytes but it; and it cannot be quoted, as it ends the string. */
static void delimited(char d) {
    char string[2 * BYTES], script[2 * BYTES + 16], name[48];
    size_t n = 0;
    set s = {{0}};
    int good;

    for (int b = FIRST; b <= LAST; b++) {
        if (b == d) continue;
        if (b == '-' || b == '"') string[n++] = '"';
        string[n++] = (char)b;
        count_one(&s, (char)b);
    }
    string[n] = '\0';
    snprintf(script, sizeof script, "WORD%c%s%c\n", d, string, d);
    good = counts(script, 1, &s);
    snprintf(script, sizeof script, "WORD  %c%s\n", d, string);
    good = good && counts(script, 1, &s);
    snprintf(script, sizeof script, "WORD%c\"%c%c\n", d, d, d);
    good = good && refuses(script, ZED_BAD_WORD_SET, 5);
    snprintf(script, sizeof script, "WORD%ca%c-c%c\n", d, d, d);
    good = good && refuses(script, ZED_UNKNOWN_COMMAND, 7);
    snprintf(name, sizeof name, "between two %c", d);
    check(name, good);
}

/* `part` again and again, cut at n bytes. */
static char *repeated(const char *part, size_t n) {
    char *string = malloc(n + 1);
    if (string == NULL) exit(2);
    for (size_t i = 0; i < n; i++) string[i] = part[i % strlen(part)];
    string[n] = '\0';
    return string;
}

/* WORD and a string of so many bytes, with a closing delimiter or with none: the rule's set, or its place. */
static int long_naming(const char *part, size_t n, const char *last, int closes) {
    char *string = repeated(part, n - strlen(last)), script[2 * LONGEST];
    set s;
    int misused, good;

    string = realloc(string, n + 1);
    if (string == NULL) exit(2);
    strcat(string, last);
    misused = named(string, &s);
    snprintf(script, sizeof script, "WORD/%s%s\n", string, closes ? "/" : "");
    if (strlen(script) > LONGEST + 1)
        good = refuses(script, ZED_SCRIPT_MALFORMED, 0);
    else
        good = misused < 0 ? counts(script, 1, &s) : refuses(script, ZED_BAD_WORD_SET, 5 + (uint64_t)misused);
    free(string);
    return good;
}

/* Strings as long as a line of 255 bytes allows, 250 bytes without the closing delimiter and 249 with it, and one longer; their last byte misused. */
static void long_strings(void) {
    static const char *const parts[] = {"a", "ab1 ", "b-y", "0-37-9A-C", "\"-", "\"-\"\"x"};
    char name[64];

    for (size_t i = 0; i < sizeof parts / sizeof parts[0]; i++) {
        for (size_t n = 240; n <= 252; n++) {
            int good = long_naming(parts[i], n, "", 0) && long_naming(parts[i], n, "", 1);
            good = good && long_naming(parts[i], n, "-", 0) && long_naming(parts[i], n, "\"", 0) && long_naming(parts[i], n, "a-\"", 1);
            snprintf(name, sizeof name, "%s and so on, %d bytes", parts[i], (int)n);
            check(name, good);
        }
    }
}

/* As many WORDs as a script can have, each in a line of its own, the last of which counts; the work area is just long enough. */
static void many_namings(const char *line) {
    static const char last[] = "WORD/\"-x\n";
    text script = {0};
    set s = {{0}};
    uint64_t steps = 0;

    while (script.length + strlen(line) + strlen(last) + strlen(marking_any_case) <= SCRIPT) {
        say(&script, line);
        steps++;
    }
    say(&script, last);
    count_one(&s, '-');
    count_one(&s, 'x');
    check(line, counts(script.at, steps + 1, &s));
    free(script.at);
}

/* The set is replaced, not added to; it stands until the next one, whatever comes between. */
static void replaced(void) {
    set first = letters_and_digits(), s = {{0}};

    check("letters and digits at first", counts("", 0, &first));
    check("letters and digits named", counts("WORD/a-zA-Z0-9/\n", 1, &first));
    check("none", counts("WORD//\n", 1, &s));
    check("letters and digits, then none", counts("WORD/a-zA-Z0-9/; WORD//\n", 2, &s));
    count_one(&s, 'b');
    check("the last of three", counts("WORD/a/; WORD/0-9 /; WORD/b/\n", 3, &s));
    check("one byte twice and in a range", counts("WORD/bb\"bb-b/\n", 1, &s));
    check("not passed over by a count of 0", counts("WORD/b/; 0(WORD/a/; WORD//)\n", 1, &s));
    check("in a group left by AGP", counts("(WORD/b/; AGP; WORD/a/)\n", 3, &s));
    check("globals come and go", counts("WORD/b/; GE/zzz/y/; CG\n", 3, &s));
    check("globals stand", counts("16 GE/zzz/y/; WORD/b/\n", 33, &s));
    check("every line is read", counts("WORD/b/; M *; M 1\n", 3, &s));
}

/* Each round of a count names two sets: the first IF is false, the second is true. */
static void rounds(void) {
    for (int n = 0; n <= 40; n++) {
        char script[96], name[48];
        text journal = {0};
        struct outcome o;

        for (int i = 0; i < n; i++) say(&journal, "++2\n");
        say(&journal, "==xa\n");
        snprintf(script, sizeof script, "%d(WORD/x/; IF W/a/ IS/1/; WORD/a/; IF W/a/ IS/2/)\n", n);
        o = run("xa\n", script, UINT32_MAX, 999);
        snprintf(name, sizeof name, "two sets in each of %d rounds", n);
        check(name, o.kept && o.answer.number == ZED_DONE && o.answer.steps == 6 * (uint64_t)n && is_journal(&o, &journal));
        free(o.journal), free(journal.at);
    }
}

/* The run of a script on a table of many lines comes to this journal, in these steps, with just the room for it and with more. */
static void over_many(const char *name, const text *lines, const char *script, uint64_t steps, uint64_t furthest, const text *journal) {
    for (size_t more = 0; more <= 64; more += 64) {
        struct outcome o = run_bytes(lines->at, lines->length, script, strlen(script), UINT32_MAX, 2 * strlen(script) + 64 + more, journal->length + more);
        check(name, o.kept && o.answer.number == ZED_DONE && o.answer.steps == steps && o.answer.furthest == furthest && is_journal(&o, journal));
        free(o.journal);
    }
}

/* A set over 65,535 lines, each with another byte before the string: the lines are changed where this byte does not count. */
static void every_line(void) {
    static const char string[] = "A-Z\"-5-6 ";
    text lines = {0}, journal = {0};
    char line[32], script[96];
    uint64_t changed = 0;
    set s;

    check("the set over every line", named(string, &s) < 0);
    for (int i = 0; i < LINES; i++) {
        char b = (char)(FIRST + i % (LAST - FIRST + 1));
        snprintf(line, sizeof line, "%c12\n", b);
        say(&lines, line);
        if (s.has[(unsigned char)b]) {
            snprintf(line, sizeof line, "==%c12\n", b);
        } else {
            snprintf(line, sizeof line, "<>%c12\n%c345\n", b, b);
            changed++;
        }
        say(&journal, line);
    }
    snprintf(script, sizeof script, "WORD/%s/\nRPT (IF W/12/ E W/12/345/; N; IFEOF AGP)\n", string);
    over_many("every line with its byte", &lines, script, 1 + 4 * (uint64_t)LINES + changed + 1, LINES + 1, &journal);
    free(lines.at), free(journal.at);
}

/* A set over 65,535 lines, of which the search passes all but one: forward, deleting, backward. */
static void one_line(void) {
    text lines = {0}, forward = {0}, deleting = {0}, backward = {0};
    char line[32], record[40];

    for (int i = 0; i < LINES; i++) {
        if (i == 0 || i == LINES - 1)
            strcpy(line, " A-12 \n");
        else
            snprintf(line, sizeof line, "A-12%c\n", "-0ZA"[i % 4]);
        say(&lines, line);
        snprintf(record, sizeof record, "==%s", line);
        if (i < LINES - 1) say(&forward, record);
        if (i > 0) say(&backward, record);
        else say(&backward, "<> A-12 \n B-7 \n");
        record[0] = record[1] = '-';
        if (i == 0) say(&deleting, "== A-12 \n");
        else if (i < LINES - 1) say(&deleting, record);
    }
    say(&forward, "<> A-12 \n B-7 \n");
    say(&deleting, "<> A-12 \n B-7 \n");
    over_many("forward to the last line", &lines, "WORD/A-Z0-9\"-/; N; F W/A-12/; E/A-12/B-7/\n", 4 + LINES - 1, LINES, &forward);
    over_many("deleting to the last line", &lines, "WORD/A-Z0-9\"-/; N; DF W/A-12/; E/A-12/B-7/\n", 4 + LINES - 1, LINES, &deleting);
    over_many("backward to the first line", &lines, "WORD/A-Z0-9\"-/; M *; 2P; BF W/A-12/; E W/A-12/B-7/\n", 8 + LINES - 1, LINES + 1, &backward);
    free(lines.at), free(forward.at), free(deleting.at), free(backward.at);
}

/* Number, steps, furthest line, place and journal, as the plain interpreter (tools/oracle.py) gives them. */
static const struct job {
    const char *table, *script;
    uint64_t number, steps, furthest, place;
    const char *journal;
} jobs[] = {
    /* W in each command, by letters and digits, then by stop codes */
    {"A-12 A\n", "E W/A/B/\n", 0, 1, 1, 0, "<>A-12 A\nB-12 A\n"},
    {"A-12 A\n", "WORD/A-Z0-9\"-/; E W/A/B/\n", 0, 2, 1, 0, "<>A-12 A\nA-12 B\n"},
    {"A-12 A\n", "WORD/A-Z0-9\"-/; A W/A/x/\n", 0, 2, 1, 0, "<>A-12 A\nA-12 Ax\n"},
    {"A-12 A\n", "WORD/A-Z0-9\"-/; B W/A/x/\n", 0, 2, 1, 0, "<>A-12 A\nA-12 xA\n"},
    {"A-12 A\n", "WORD/A-Z0-9\"-/; EP W/A/x/; E//y/\n", 0, 3, 1, 0, "<>A-12 A\nA-12 xy\n"},
    {"A-12 A\n", "WORD/A-Z0-9\"-/; AP W/A/x/; E//y/\n", 0, 3, 1, 0, "<>A-12 A\nA-12 Axy\n"},
    {"A-12 A\n", "WORD/A-Z0-9\"-/; BP W/A/x/; E//y/\n", 0, 3, 1, 0, "<>A-12 A\nA-12 xAy\n"},
    {"A-12 A\n", "WORD/A-Z0-9\"-/; PA W/A/; E//y/\n", 0, 3, 1, 0, "<>A-12 A\nA-12 Ay\n"},
    {"A-12 A\n", "WORD/A-Z0-9\"-/; PB W/A/; E//y/\n", 0, 3, 1, 0, "<>A-12 A\nA-12 yA\n"},
    {"A-12 A\n", "WORD/A-Z0-9\"-/; SA W/A/\n", 0, 2, 1, 0, "++A-12 A\n<>A-12 A\n\n"},
    {"A-12 A\n", "WORD/A-Z0-9\"-/; SB W/A/\n", 0, 2, 1, 0, "++A-12 \n<>A-12 A\nA\n"},
    {"A-12 A\n", "WORD/A-Z0-9\"-/; E LW/A/B/\n", 0, 2, 1, 0, "<>A-12 A\nA-12 B\n"},
    {"A-12 A\n", "WORD/A-Z0-9\"-/; E W2/A/B/\n", 24, 2, 1, 16, "==A-12 A\n"},
    {"A-12 A\n", "WORD/A-Z0-9\"-/; E BW/A/B/\n", 24, 2, 1, 16, "==A-12 A\n"},
    {"A-12 A\n", "WORD/A-Z0-9\"-/; E EW/A/B/\n", 0, 2, 1, 0, "<>A-12 A\nA-12 B\n"},
    {"A-12 A\n", "WORD/A-Z0-9\"-/; E PW/A/B/\n", 24, 2, 1, 16, "==A-12 A\n"},
    {"A-12 A\n", "WORD/A-Z0-9\"-/; E W/A-12/B/\n", 0, 2, 1, 0, "<>A-12 A\nB A\n"},
    {"A-12 A\n", "WORD/A-Z0-9\"-/; E W/12/B/\n", 24, 2, 1, 16, "==A-12 A\n"},
    {"A-12 A\n", "WORD/A-Z0-9\"-/; E UW/a/b/\n", 0, 2, 1, 0, "<>A-12 A\nA-12 b\n"},
    {"A-12 A\n", "WORD/A-Z0-9\"-/; E W_6,6_/A/B/\n", 0, 2, 1, 0, "<>A-12 A\nA-12 B\n"},
    {"A-12 A\n", "WORD/A-Z0-9\"-/; E W_1,4_/A/B/\n", 24, 2, 1, 16, "==A-12 A\n"},
    /* in searches and tests */
    {"A-12\n12\n", "WORD/A-Z0-9\"-/; F W/12/; IC\n", 0, 5, 2, 0, "==A-12\n++12\n==12\n"},
    {"A-12\n12\n", "WORD/A-Z0-9\"-/; DF W/12/\n", 0, 4, 2, 0, "--A-12\n==12\n"},
    {"12\nA-12\n", "WORD/A-Z0-9\"-/; N; BF W/12/; IC\n", 0, 6, 2, 0, "++12\n==12\n==A-12\n"},
    {"A-12\n12\n", "WORD/A-Z0-9\"-/; F NW/12/; IC\n", 0, 4, 1, 0, "++A-12\n==A-12\n==12\n"},
    {"A-12\n12\n", "WORD/A-Z0-9\"-/; F (W/12/ & N/A/ | W/99/); IC\n", 0, 5, 2, 0, "==A-12\n++12\n==12\n"},
    {"A-12\n", "IF W/12/ IS/1/; WORD/A-Z0-9\"-/; IF W/12/ IS/2/; UL W/12/ IS/3/\n", 0, 6, 1, 0, "++1\n++3\n==A-12\n"},
    {"A-12\n", "WH W/12/ (IS/1/; WORD/A-Z0-9\"-/; IS/2/)\n", 0, 5, 1, 0, "++1\n++2\n==A-12\n"},
    {"A-12\n", "WORD/\"-/; UT W/12/ (IS/1/; WORD/A/)\n", 0, 5, 1, 0, "++1\n==A-12\n"},
    {"a-\na\n", "IF W/a/ IS/1/; WORD/\"-/; IF W/a/ IS/2/; F W/a/\n", 0, 7, 2, 0, "++1\n==a-\n==a\n"},
    {"A-12\nA-12\nA-12\n", "WORD/1/; RPT (IF W/A/ E/A/B/; N; WORD/\"-/; IF W/A/ E/A/C/; N; WORD//)\n", 20, 16, 4, 59, "<>A-12\nB-12\n==A-12\n<>A-12\nB-12\n"},
    {"A-12\n", "WORD/A-Z0-9\"-/; M *; IF NW/12/ IS/1/\n", 0, 4, 2, 0, "==A-12\n++1\n"},
    /* the bytes before and after are those of the whole line, whatever the window is */
    {"xab\n", "WORD/x/; >; E W/a/c/\n", 24, 3, 1, 12, "==xab\n"},
    {"xab\n", "WORD/b/; E W_2,2_/a/c/\n", 24, 2, 1, 9, "==xab\n"},
    {"xab\n", "WORD/x/; E W_2,2_/a/c/\n", 24, 2, 1, 9, "==xab\n"},
    {"xab\n", "WORD/z/; E W_2,2_/a/c/\n", 0, 2, 1, 0, "<>xab\nxcb\n"},
    {"xaXa\n", "WORD/x/; E UW/A/b/\n", 0, 2, 1, 0, "<>xaXa\nxaXb\n"},
    {"aa\n", "WORD/a/; E W/a/b/\n", 24, 2, 1, 9, "==aa\n"},
    {"aa\n", "WORD/b/; E W2/a/b/\n", 0, 2, 1, 0, "<>aa\nab\n"},
    {"aa\n", "WORD/a/; E W/aa/b/\n", 0, 2, 1, 0, "<>aa\nb\n"},
    /* beside globals, which have no W; neither cancels the other */
    {"A-12\nA-12 A\nA-12 A\n", "GE/12/7/; WORD/A-Z0-9\"-/; N; E W/A/B/; CG; N; E W/A/C/\n", 0, 7, 3, 0, "==A-12\n<>A-12 A\nA-7 B\n<>A-12 A\nA-12 C\n"},
    {"a\nxa\n", "WORD/x/; 16 GA/x/-/; N; E W/a/b/\n", 0, 35, 2, 0, "==a\n<>xa\nx----------------b\n"},
    {"a\nxa\n", "16 GA/q/-/; WORD/x/; N; GE/x/y/\n", 31, 35, 2, 24, "==a\n==xa\n"},
    /* names, spaces, the closing delimiter; at EOF and with no line; a W is another command */
    {"a\n", "word a\n", 3, 0, 0, 5, ""},
    {"a\n", "WORD !a!\n", 0, 1, 1, 0, "==a\n"},
    {"xa\n", "Words,\"xx,E W/a/b/\n", 24, 2, 1, 10, "==xa\n"},
    {"xa\n", "WORDING  .x\nE W/a/b/\n", 24, 2, 1, 12, "==xa\n"},
    {"a\n", "WOR/a/\n", 2, 0, 0, 0, ""},
    {"a\n", "WORD\n", 3, 0, 0, 4, ""},
    {"a\n", "WORD; N\n", 3, 0, 0, 4, ""},
    {"a\n", "WORD N/a/\n", 3, 0, 0, 5, ""},
    {"a\n", "WORD W/a/\n", 3, 0, 0, 5, ""},
    {"a\n", "WORD 2/a/\n", 3, 0, 0, 5, ""},
    {"a\n", "WORD(/a/)\n", 3, 0, 0, 4, ""},
    {"", "WORD/a/\n", 0, 1, 1, 0, ""},
    {"a\n", "M *; WORD/a/; P; IC\n", 0, 4, 2, 0, "++a\n==a\n"},
    {"a\n", "W ; WORD/b/\n", 0, 1, 1, 0, "==a\n"},
    {"a\n", "W WORD/-/\n", 33, 0, 0, 7, ""},
    /* 33 at its place, wherever the command stands; the first fault counts */
    {"a\n", "WORD/-a/\n", 33, 0, 0, 5, ""},
    {"a\n", "WORD/a-c-e/\n", 33, 0, 0, 8, ""},
    {"a\n", "WORD/\"a-c/\n", 33, 0, 0, 7, ""},
    {"a\n", "WORD/ -a/\n", 33, 0, 0, 6, ""},
    {"a\n", "WORD/a-/\n", 33, 0, 0, 6, ""},
    {"a\n", "WORD/a-\n", 33, 0, 0, 6, ""},
    {"a\n", "WORD/a-\"c/\n", 33, 0, 0, 6, ""},
    {"a\n", "WORD/a--/\n", 33, 0, 0, 6, ""},
    {"a\n", "WORD/A-z/\n", 33, 0, 0, 6, ""},
    {"a\n", "WORD/b-a/\n", 33, 0, 0, 6, ""},
    {"a\n", "WORD/a\"/\n", 33, 0, 0, 6, ""},
    {"a\n", "WORD/\"\n", 33, 0, 0, 5, ""},
    {"a\n", "WORD/a-\"/\n", 33, 0, 0, 6, ""},
    {"a\n", "WORD/\"\"-/\n", 33, 0, 0, 7, ""},
    {"a\n", "N; 2(IF W/a/ (WORD/z-a/))\n", 33, 0, 0, 20, ""},
    {"a\n", "0(WORD/0-Z/)\n", 33, 0, 0, 8, ""},
    {"a\n", "(WORD/-/\n", 33, 0, 0, 6, ""},
    {"a\n", "WORD/-/; (\n", 33, 0, 0, 5, ""},
    {"a\n", "F; WORD/-/\n", 3, 0, 0, 1, ""},
    {"a\n", "WORD/-/; F\n", 33, 0, 0, 5, ""},
    {"a\n", "WORD/ab/; WORD/\"/; Q\n", 33, 0, 0, 15, ""},
    {"a\n", "Q; WORD/\"/\n", 2, 0, 0, 0, ""},
    {"a\n", "RPT WORD/-/\n", 33, 0, 0, 9, ""},
};

static void does(const struct job *job) {
    struct outcome o = run(job->table, job->script, 99, 999);

    check(job->script, o.kept && o.answer.number == job->number && o.answer.steps == job->steps && o.answer.furthest == job->furthest && o.answer.place == job->place
                           && o.answer.length == strlen(job->journal) && memcmp(o.journal, job->journal, o.answer.length) == 0);
    free(o.journal);
}

/* 33 beside the other refusals: by place among 2 to 6, after 1 and 8, before 7 and 9. */
static void ranked(void) {
    struct outcome o;

    check("1 before 33", refuses("WORD/-/", ZED_SCRIPT_MALFORMED, 0));
    o = run_bytes("a\n", 2, "WORD/-/\n", 8, 9, 2 * 8 + 63, 99);
    check("8 before 33", o.kept && o.answer.number == ZED_WORK_SHORT && o.answer.place == 0);
    free(o.journal);
    o = run("a", "WORD/-/\n", 9, 99);
    check("33 before 7", o.kept && o.answer.number == ZED_BAD_WORD_SET && o.answer.place == 5);
    free(o.journal);
    o = run("a\n", "WORD/-/\n", 9, 3);
    check("33 before 9", o.kept && o.answer.number == ZED_BAD_WORD_SET && o.answer.place == 5);
    free(o.journal);
}

int main(void) {
    make_table();
    replaced();
    for (int b = FIRST; b <= LAST; b++) one_byte((char)b);
    for (size_t i = 0; i < sizeof kinds / sizeof kinds[0]; i++)
        for (const char *x = kinds[i]; *x != '\0'; x++) ranges_from(*x);
    for (int b = FIRST; b <= LAST; b++) two_and_three((char)b);
    short_strings();
    for (const char *d = delimiters; *d != '\0'; d++) delimited(*d);
    long_strings();
    many_namings("WORD/\n");
    many_namings("WORD//;\n");
    many_namings("word/x\n");
    rounds();
    every_line();
    one_line();
    ranked();
    for (size_t i = 0; i < sizeof jobs / sizeof jobs[0]; i++) does(&jobs[i]);
    return checked();
}
