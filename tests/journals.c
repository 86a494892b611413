/*
 * Journals joined and turned round (document 02, wish 7). Bytes of the destination that are not written, and those after it, must stay.
 */
#include <stdint.h>
#include <stdio.h>
#include <stdlib.h>
#include <string.h>

#include "../include/zed.h"
#include "check.h"
#include "runs.h"
#include "texts.h"

enum { MOST_LINES = 65535, LONGEST = 255, SPARE = 40 };

static text of(const char *words) {
    text t = {NULL, 0, 0};

    say(&t, words);
    return t;
}

static const text NOTHING = {"", 0, 1};

static int same(text a, text b) {
    return a.length == b.length && memcmp(a.at, b.at, a.length) == 0;
}

/* ---- calls */

/* What a call answers, and its destination. */
struct made {
    uint32_t number;
    size_t written, room;
    uint8_t *dest;
};

static struct made destination(size_t room) {
    struct made m = {99, room + 1, room, lend(room)};

    return m;
}

static struct made joined(text first, text second, size_t room) {
    struct made m = destination(room);

    m.number = zed_join((const uint8_t *)first.at, first.length, (const uint8_t *)second.at, second.length, m.dest, room, &m.written);
    return m;
}

typedef uint32_t reader(const uint8_t *, size_t, uint8_t *, size_t, size_t *);

/* zed_turn, or a reader of journals. */
static struct made read_by(reader *read, text journal, size_t room) {
    struct made m = destination(room);

    m.number = read((const uint8_t *)journal.at, journal.length, m.dest, room, &m.written);
    return m;
}

/* The call answers this number and writes these bytes, and no other byte is touched. */
static int gives(struct made m, uint32_t number, text want) {
    int good = m.number == number && m.written == want.length && want.length <= m.room && memcmp(m.dest, want.at, want.length) == 0 &&
               all_are(m.dest + want.length, m.room - want.length + GUARD, FILL);

    free(m.dest);
    return good;
}

static int refuses(struct made m, uint32_t number) {
    return gives(m, number, NOTHING);
}

/* What the call writes. The check fails if it is not done, or touches more. */
static text taken(struct made m) {
    text t = of("");
    int done = m.number == ZED_DONE && m.written <= m.room && all_are(m.dest + m.written, m.room - m.written + GUARD, FILL);

    check("done", done);
    add(&t, (const char *)m.dest, done ? m.written : 0);
    free(m.dest);
    return t;
}

static text join(text first, text second) {
    return taken(joined(first, second, first.length + second.length));
}

static text turn(text journal) {
    return taken(read_by(zed_turn, journal, journal.length));
}

static text side(reader *read, text journal) {
    return taken(read_by(read, journal, journal.length));
}

/* Done with a destination of just the length and with a longer one; refused one byte short, and with none. */
static void joins(const char *name, text first, text second, text want) {
    check(name, gives(joined(first, second, want.length), ZED_DONE, want));
    check(name, gives(joined(first, second, want.length + SPARE), ZED_DONE, want));
    if (want.length > 0) check(name, refuses(joined(first, second, want.length - 1), ZED_DESTINATION_SHORT));
    if (want.length > 0) check(name, refuses(joined(first, second, 0), ZED_DESTINATION_SHORT));
}

/* The same; and turned round once more it is the first journal again. */
static void turns(const char *name, text journal, text want) {
    check(name, gives(read_by(zed_turn, journal, want.length), ZED_DONE, want));
    check(name, gives(read_by(zed_turn, journal, want.length + SPARE), ZED_DONE, want));
    check(name, gives(read_by(zed_turn, want, journal.length), ZED_DONE, journal));
    if (want.length > 0) check(name, refuses(read_by(zed_turn, journal, want.length - 1), ZED_DESTINATION_SHORT));
    if (want.length > 0) check(name, refuses(read_by(zed_turn, journal, 0), ZED_DESTINATION_SHORT));
}

/* Refused with this number, however long the destination is. */
static void join_refused(const char *name, text first, text second, uint32_t number) {
    check(name, refuses(joined(first, second, 0), number));
    check(name, refuses(joined(first, second, 3), number));
    check(name, refuses(joined(first, second, first.length + second.length + SPARE), number));
}

/* ---- by hand */

static const char *name_of(const char *what, size_t i) {
    static char name[64];

    snprintf(name, sizeof name, "%s, case %zu", what, i);
    return name;
}

static void joined_by_hand(void) {
    static const struct {
        const char *first, *second, *want;
    } cases[] = {
        {"", "", ""},
        /* a line kept or changed in both, by its old and new text */
        {"==a\n", "==a\n", "==a\n"},
        {"<>a\nb\n", "<>b\na\n", "==a\n"},
        {"<>a\nb\n", "<>b\nc\n", "<>a\nc\n"},
        {"==a\n", "<>a\nb\n", "<>a\nb\n"},
        {"<>a\nb\n", "==b\n", "<>a\nb\n"},
        /* every other line */
        {"++m\n", "--m\n", ""},
        {"++m\n", "==m\n", "++m\n"},
        {"++m\n", "<>m\nn\n", "++n\n"},
        {"==a\n", "--a\n", "--a\n"},
        {"<>a\nb\n", "--b\n", "--a\n"},
        {"--a\n", "", "--a\n"},
        {"", "++a\n", "++a\n"},
        {"--a\n", "++a\n", "--a\n++a\n"},
        /* what left before what came, in each stretch; lines that leave nothing part nothing */
        {"--a\n++m\n==c\n", "--m\n++x\n==c\n", "--a\n++x\n==c\n"},
        {"==a\n--b\n", "--a\n++n\n", "--a\n--b\n++n\n"},
        {"<>a\nb\n++m\n", "--b\n<>m\nn\n", "--a\n++n\n"},
        {"==a\n==b\n", "++x\n==a\n++y\n==b\n++z\n", "++x\n==a\n++y\n==b\n++z\n"},
        {"==a\n++p\n==b\n--c\n", "--a\n++x\n<>p\nq\n--b\n++y\n", "--a\n--b\n--c\n++x\n++q\n++y\n"},
        {"==k\n++p\n++q\n==l\n", "==k\n--p\n--q\n==l\n", "==k\n==l\n"},
        {"--a\n++p\n==k\n--b\n++q\n", "--p\n==k\n--q\n++y\n", "--a\n==k\n--b\n++y\n"},
        /* lines that look like marks, and empty lines */
        {"==--\n--++\n++==\n", "<>--\n++\n--==\n++<>\n", "<>--\n++\n--++\n++<>\n"},
        {"==\n<>\na\n--\n++\n", "--\n--a\n++\n==\n", "--\n--\n--\n++\n++\n"},
    };
    for (size_t i = 0; i < sizeof cases / sizeof cases[0]; i++) {
        text first = of(cases[i].first), second = of(cases[i].second), want = of(cases[i].want);

        joins(name_of("joined by hand", i), first, second, want);
        free(first.at), free(second.at), free(want.at);
    }
}

static void turned_by_hand(void) {
    static const char *cases[][2] = {
        {"", ""},
        {"==a\n", "==a\n"},
        {"--a\n", "++a\n"},
        {"<>a\nb\n", "<>b\na\n"},
        {"<>a\n--b\n", "<>--b\na\n"},
        {"<>\na\n", "<>a\n\n"},
        {"--a\n++x\n==c\n<>d\ne\n", "--x\n++a\n==c\n<>e\nd\n"},
        {"++x\n==a\n--b\n", "--x\n==a\n++b\n"},
        {"--a\n--b\n++x\n++y\n++z\n", "--x\n--y\n--z\n++a\n++b\n"},
        {"--++\n++--\n++\n<>==\n<>\n==\n", "----\n--\n++++\n<><>\n==\n==\n"},
    };
    for (size_t i = 0; i < sizeof cases / sizeof cases[0]; i++) {
        text journal = of(cases[i][0]), want = of(cases[i][1]);

        turns(name_of("turned by hand", i), journal, want);
        free(journal.at), free(want.at);
    }
}

/* The first's new side is not the second's old side: 32, before 10. */
static void middles_differ(void) {
    static const char *cases[][2] = {
        {"", "==\n"},
        {"++\n", ""},
        {"==a\n", "==b\n"},
        {"==a\n", "==ab\n"},
        {"==ab\n", "==a\n"},
        {"==a\n", "==a\n==a\n"},
        {"==a\n==a\n", "==a\n"},
        {"==a\n==b\n", "==b\n==a\n"},
        {"==a\n==b\n", "==a\n==c\n"},
        {"<>a\nb\n", "<>a\nb\n"},
        {"--a\n", "--a\n"},
        {"++a\n", "++a\n"},
        {"==a\n--b\n", "==a\n--b\n++c\n"},
        {"==a\n++b\n", "==a\n++b\n"},
    };
    for (size_t i = 0; i < sizeof cases / sizeof cases[0]; i++) {
        text first = of(cases[i][0]), second = of(cases[i][1]);

        join_refused(name_of("the middle tables differ", i), first, second, ZED_MIDDLE_DIFFERS);
        free(first.at), free(second.at);
    }
}

/* No journal that is taken: 11 as either journal and as both, before 32 and 10; the other one does not fit. */
static void not_taken(const char *name, text bad) {
    text q = of("==q\n"), other = of("++x\n--a\n");

    join_refused(name, bad, NOTHING, ZED_NOT_A_JOURNAL);
    join_refused(name, NOTHING, bad, ZED_NOT_A_JOURNAL);
    join_refused(name, bad, q, ZED_NOT_A_JOURNAL);
    join_refused(name, q, bad, ZED_NOT_A_JOURNAL);
    join_refused(name, bad, bad, ZED_NOT_A_JOURNAL);
    join_refused(name, bad, other, ZED_NOT_A_JOURNAL);
    join_refused(name, other, bad, ZED_NOT_A_JOURNAL);
    check(name, refuses(read_by(zed_turn, bad, 0), ZED_NOT_A_JOURNAL));
    check(name, refuses(read_by(zed_turn, bad, bad.length), ZED_NOT_A_JOURNAL));
    free(q.at), free(other.at);
}

#define BYTES(words) {words, sizeof words - 1, sizeof words}

static void malformed(void) {
    static const text cases[] = {
        BYTES("a\n"), BYTES("=-a\n"), BYTES("="), BYTES("==a"), BYTES("\n"), BYTES("<>a\na\n"), BYTES("<>a\n"), BYTES("<>a\nb"), BYTES("==\x1f\n"), BYTES("==\x7f\n"),
        BYTES("==a\n\0"), BYTES("==a\n==b"), BYTES("==a\n--\x80\n"), BYTES("<>a\n\x1f\n"),
    };
    text line = of("==");

    for (size_t i = 0; i < sizeof cases / sizeof cases[0]; i++) not_taken(name_of("malformed", i), cases[i]);
    for (size_t i = 0; i < LONGEST; i++) say(&line, "x");
    say(&line, "\n");
    joins("a line of 255 bytes", line, line, line);
    turns("a line of 255 bytes", line, line);
    line.at[line.length - 1] = 'x';
    say(&line, "\n");
    not_taken("a line of 256 bytes", line);
    free(line.at);
}

/* A `--` after a `++` of its stretch. The sides and the listing are read from such a journal. */
static void unarranged(void) {
    static const text cases[] = {
        BYTES("++x\n--a\n"), BYTES("++a\n--a\n"), BYTES("--a\n++x\n--b\n"), BYTES("==k\n++x\n++y\n--a\n==l\n"), BYTES("++x\n==a\n++y\n--b\n"), BYTES("<>a\nb\n++x\n--c\n"),
    };
    for (size_t i = 0; i < sizeof cases / sizeof cases[0]; i++) {
        text old = side(zed_old_side, cases[i]);

        check("an unarranged journal has its old side", old.length > 0);
        not_taken(name_of("unarranged", i), cases[i]);
        free(old.at);
    }
}

/* ---- the most lines */

/* So many times a record, and then so many times another one. */
static text many(const char *record, size_t count, const char *then, size_t as_many) {
    text t = of("");

    while (count-- > 0) say(&t, record);
    while (as_many-- > 0) say(&t, then);
    return t;
}

static void most_lines(void) {
    text kept = many("==\n", MOST_LINES, "", 0), left = many("--\n", MOST_LINES, "", 0), came = many("++\n", MOST_LINES, "", 0);
    text changed = many("<>\na\n", MOST_LINES, "", 0), back = many("<>a\n\n", MOST_LINES, "", 0), both = many("--\n", MOST_LINES, "++\n", MOST_LINES);

    joins("65,535 lines kept", kept, kept, kept);
    joins("65,535 lines inserted and deleted", came, left, NOTHING);
    joins("65,535 lines deleted, then as many inserted", left, came, both);
    joins("65,535 lines changed and changed back", changed, back, kept);
    joins("65,535 lines replaced twice", both, both, both);
    turns("65,535 lines kept", kept, kept);
    turns("65,535 lines deleted", left, came);
    turns("65,535 lines changed", changed, back);
    turns("65,535 lines replaced", both, both);
    free(kept.at), free(left.at), free(came.at), free(changed.at), free(back.at), free(both.at);
}

static void too_many_lines(void) {
    const struct {
        const char *name;
        text journal;
        int old_is_over; /* then it is no journal for the readers either */
    } cases[] = {
        {"65,536 lines kept", many("==\n", MOST_LINES + 1, "", 0), 1},
        {"65,536 lines changed", many("<>\na\n", MOST_LINES + 1, "", 0), 1},
        {"65,536 lines deleted", many("--\n", MOST_LINES + 1, "", 0), 1},
        {"a line deleted, 65,535 kept", many("--\n", 1, "==\n", MOST_LINES), 1},
        {"65,536 lines inserted", many("++\n", MOST_LINES + 1, "", 0), 0},
        {"65,535 lines kept, one inserted", many("==\n", MOST_LINES, "++\n", 1), 0},
        {"65,535 lines deleted, 65,536 inserted", many("--\n", MOST_LINES, "++\n", MOST_LINES + 1), 0},
    };
    for (size_t i = 0; i < sizeof cases / sizeof cases[0]; i++) {
        text journal = cases[i].journal;
        struct made lines = read_by(zed_new_side, journal, journal.length);

        check(cases[i].name, lines.number == (cases[i].old_is_over ? ZED_NOT_A_JOURNAL : ZED_DONE));
        not_taken(cases[i].name, journal);
        free(lines.dest), free(journal.at);
    }
}

/* ---- long journals */

/* Line i of a table that has a letter as its name, so many bytes long. */
static void add_line(text *t, char table, size_t i, size_t length) {
    char line[LONGEST + 12];
    int digits = snprintf(line, sizeof line, "%c%zu", table, i);

    memset(line + digits, '.', LONGEST + 12 - (size_t)digits);
    line[length] = '\n';
    add(t, line, length + 1);
}

static void add_lines(text *t, const char *mark, char table, size_t lines, size_t length) {
    for (size_t i = 1; i <= lines; i++) {
        say(t, mark);
        add_line(t, table, i, length);
    }
}

static text replaced(char before, char after, size_t lines, size_t length) {
    text t = of("");

    add_lines(&t, "--", before, lines, length);
    add_lines(&t, "++", after, lines, length);
    return t;
}

static text changed(char before, char after, size_t lines, size_t length) {
    text t = of("");

    for (size_t i = 1; i <= lines; i++) {
        say(&t, "<>");
        add_line(&t, before, i, length);
        add_line(&t, after, i, length);
    }
    return t;
}

/* All lines replaced: one stretch of two records a line in each journal. And all lines changed. */
static void all_lines(const char *name, size_t lines, size_t length) {
    text first = replaced('o', 'm', lines, length), second = replaced('m', 'n', lines, length), want = replaced('o', 'n', lines, length), round = replaced('m', 'o', lines, length);
    text kept = of("");

    joins(name, first, second, want);
    turns(name, first, round);
    free(first.at), free(second.at), free(want.at), free(round.at);
    first = changed('o', 'm', lines, length), second = changed('m', 'n', lines, length), want = changed('o', 'n', lines, length), round = changed('m', 'o', lines, length);
    add_lines(&kept, "==", 'o', lines, length);
    joins(name, first, second, want);
    joins(name, first, round, kept);
    turns(name, first, round);
    free(first.at), free(second.at), free(want.at), free(round.at), free(kept.at);
}

/* ---- by chance */

/* A number below n; the same ones at each run of the test. */
static uint32_t below(uint32_t n) {
    static uint32_t state = 7;

    state = state * 1664525u + 1013904223u;
    return (state >> 16) % n;
}

static const char *any_line(void) {
    static const char *lines[] = {"\n", "a\n", "a\n", "b\n", "ab\n", "-\n", "--\n", "++a\n", "==\n", "<>b\n"};

    return lines[below(sizeof lines / sizeof lines[0])];
}

static void move_to(text *t, text *from) {
    add(t, from->at, from->length);
    from->length = 0;
}

static void add_came(text *came) {
    while (below(3) == 0) say(came, "++"), say(came, any_line());
}

/* The place after the line at a place. */
static size_t after_line(text t, size_t at) {
    const char *end = at < t.length ? memchr(t.at + at, '\n', t.length - at) : NULL;

    return end == NULL ? t.length : (size_t)(end - t.at) + 1;
}

/* An arranged journal whose old side is the table. */
static text journal_of(text table) {
    text t = of(""), left = of(""), came = of("");
    uint32_t stay = 1 + below(9);

    for (size_t at = 0, next; at < table.length; at = next) {
        const char *new = below(2) == 0 ? NULL : any_line();
        int is_kept;

        next = after_line(table, at);
        is_kept = new == NULL || (strlen(new) == next - at && memcmp(new, table.at + at, next - at) == 0);
        add_came(&came);
        if (below(10) < stay) {
            move_to(&t, &left), move_to(&t, &came);
            say(&t, is_kept ? "==" : "<>"), add(&t, table.at + at, next - at);
            if (!is_kept) say(&t, new);
        } else {
            say(&left, "--"), add(&left, table.at + at, next - at);
        }
    }
    add_came(&came);
    move_to(&t, &left), move_to(&t, &came);
    free(left.at), free(came.at);
    return t;
}

static text kept_of(text table) {
    text t = of("");

    for (size_t at = 0, next; at < table.length; at = next) {
        next = after_line(table, at);
        say(&t, "=="), add(&t, table.at + at, next - at);
    }
    return t;
}

/* For each record that is not `without`, in its order: whether it is `--` or `++`. How many there are. */
static size_t ends_of(text journal, char without, uint8_t *ends) {
    size_t count = 0;

    for (size_t at = 0; at < journal.length; at = after_line(journal, at)) {
        char mark = journal.at[at];

        if (mark != without) ends[count++] = mark == '-' || mark == '+';
        if (mark == '<') at = after_line(journal, at);
    }
    return count;
}

/* How many middle lines are kept or changed in both. */
static size_t staying(text first, text second) {
    uint8_t *in_first = lend(first.length), *in_second = lend(second.length);
    size_t count = 0, lines = ends_of(first, '-', in_first);

    check("as many middle lines", lines == ends_of(second, '+', in_second));
    for (size_t i = 0; i < lines; i++) count += !in_first[i] && !in_second[i];
    free(in_first), free(in_second);
    return count;
}

/* How many records are kept or changed. */
static size_t stayed(text journal) {
    uint8_t *ends = lend(journal.length);
    size_t count = 0, records = ends_of(journal, 0, ends);

    for (size_t i = 0; i < records; i++) count += !ends[i];
    free(ends);
    return count;
}

/* Both texts are given up. */
static void equal(const char *name, text got, text want) {
    check(name, same(got, want));
    free(got.at), free(want.at);
}

/* The sides change places. */
static void round_and_back(text journal) {
    text round = turn(journal);

    equal("the old side of a journal turned round", side(zed_old_side, round), side(zed_new_side, journal));
    equal("the new side of a journal turned round", side(zed_new_side, round), side(zed_old_side, journal));
    check("turned round twice", gives(read_by(zed_turn, round, round.length), ZED_DONE, journal));
    free(round.at);
}

/* A journal with all lines kept joins to the other one, on either side. */
static void with_kept(text journal) {
    text before = side(zed_old_side, journal), after = side(zed_new_side, journal), kept_before = kept_of(before), kept_after = kept_of(after);

    joins("joined to kept lines", kept_before, journal, journal);
    joins("joined with kept lines", journal, kept_after, journal);
    free(before.at), free(after.at), free(kept_before.at), free(kept_after.at);
}

/* Two journals: the outer sides, as many records that stay one as there should be, and the same way back. */
static void two_seasons(text first, text second) {
    text both = join(first, second), back_first = turn(first), back_second = turn(second);

    equal("the old side of two joined", side(zed_old_side, both), side(zed_old_side, first));
    equal("the new side of two joined", side(zed_new_side, both), side(zed_new_side, second));
    check("lines that stay one record", stayed(both) == staying(first, second));
    equal("the way back of two joined", turn(both), join(back_second, back_first));
    joins("two joined", first, second, both);
    free(both.at), free(back_first.at), free(back_second.at);
}

static void three_seasons(text first, text second, text third) {
    text before = join(first, second), after = join(second, third);

    equal("three under both bracketings", join(before, third), join(first, after));
    free(before.at), free(after.at);
}

static void by_chance(void) {
    text table = of(""), first, second, third, one, two;

    for (uint32_t lines = below(9); lines > 0; lines--) say(&table, any_line());
    first = journal_of(table), one = side(zed_new_side, first);
    second = journal_of(one), two = side(zed_new_side, second);
    third = journal_of(two);
    round_and_back(first);
    with_kept(first);
    two_seasons(first, second);
    three_seasons(first, second, third);
    free(table.at), free(first.at), free(second.at), free(third.at), free(one.at), free(two.at);
}

/* ---- journals of runs */

static text journal_from(text table, const char *script, uint32_t budget, uint64_t number) {
    struct outcome o = run(table.at, script, budget, 3 * table.length + 999);
    text t = of("");

    check(script, o.kept && o.answer.number == number);
    add(&t, (const char *)o.journal, o.answer.length);
    free(o.journal);
    return t;
}

struct season {
    const char *script;
    uint32_t budget;
    uint64_t number;
};

/* A second run on what a first one left: the joined journal has the first table and the last one as its sides. */
static void runs_of(const char *before, struct season first_season, struct season second_season, const char *want) {
    text table = of(before), first = journal_from(table, first_season.script, first_season.budget, first_season.number), middle = side(zed_new_side, first);
    text second = journal_from(middle, second_season.script, second_season.budget, second_season.number), wanted = of(want);

    joins(first_season.script, first, second, wanted);
    equal("the first table", side(zed_old_side, wanted), of(before));
    equal("the last table", side(zed_new_side, wanted), side(zed_new_side, second));
    two_seasons(first, second);
    round_and_back(second);
    free(table.at), free(first.at), free(middle.at), free(second.at), free(wanted.at);
}

static void runs_by_hand(void) {
    const char *three = "a\nb\nc\n";
    struct season replace = {"IS/x/; D; E/b/bb/\n", 99, ZED_DONE}, again = {"D; E/bb/b/; N; IS/y/; D\n", 99, ZED_DONE};
    struct season stops = {"D; F/zz/\n", 99, ZED_MET_EOF}, spent = {"RPT (IC; D; IFEOF AGP)\n", 6, ZED_BUDGET_SPENT}, globals = {"GE/b/B/; M *\n", 99, ZED_DONE};
    struct season nothing = {"\n", 99, ZED_DONE}, all = {"D . *\n", 99, ZED_DONE};

    runs_of(three, replace, again, "--a\n==b\n--c\n++y\n");
    runs_of(three, replace, stops, "--a\n<>b\nbb\n==c\n");
    runs_of(three, nothing, replace, "--a\n++x\n<>b\nbb\n==c\n");
    runs_of(three, replace, nothing, "--a\n++x\n<>b\nbb\n==c\n");
    runs_of(three, replace, globals, "--a\n++x\n<>b\nBB\n==c\n");
    runs_of(three, globals, spent, "--a\n++a\n++B\n<>b\nB\n==c\n");
    runs_of(three, replace, all, "--a\n--b\n--c\n");
    runs_of(three, all, nothing, "--a\n--b\n--c\n");
    runs_of("", nothing, nothing, "");
}

int main(void) {
    joined_by_hand();
    turned_by_hand();
    middles_differ();
    malformed();
    unarranged();
    most_lines();
    too_many_lines();
    runs_by_hand();
    for (int i = 0; i < 300; i++) by_chance();
    all_lines("300 lines", 300, 6);
    all_lines("65,535 lines of 20 bytes", MOST_LINES, 20);
    all_lines("65,535 lines of 255 bytes", MOST_LINES, LONGEST);
    return checked();
}
