/*
 * What joining two journals and turning one round take, beside reading the new sides of the same journals, in one run of this program; and how that grows
 * with the number of lines. Processor time, the best of fifteen.
 *
 *     tools/library.sh
 *     gcc -std=c11 -O2 -Iinclude -o journals bench/journals.c target/staticlib/libzed.a
 *     ./journals
 */
#include "timing.h"

enum { LENGTH = 20, TIMES = 15 };

/* Line i of a table with a letter as its name, after a mark. */
static void put(struct bytes *b, const char *mark, char table, int i)
{
    b->length += (size_t)sprintf((char *)b->at + b->length, "%s%c%0*d\n", mark, table, LENGTH - 1, i);
}

/* A season's journal: every line kept, every tenth changed, all changed, every second replaced, or all replaced in one stretch. */
static struct bytes season(const char *kind, char before, char after, int lines)
{
    struct bytes b = lend((size_t)lines * 2 * (LENGTH + 3) + 1);

    b.length = 0;
    if (strcmp(kind, "all replaced") == 0) {
        for (int i = 0; i < lines; i++) put(&b, "--", before, i);
        for (int i = 0; i < lines; i++) put(&b, "++", after, i);
        return b;
    }
    for (int i = 0; i < lines; i++) {
        int changed = strcmp(kind, "all changed") == 0 || (strcmp(kind, "a tenth changed") == 0 && i % 10 == 9);
        int replaced = strcmp(kind, "half replaced") == 0 && i % 2 == 1;

        if (changed) {
            put(&b, "<>", before, i), put(&b, "", after, i);
        } else if (replaced) {
            put(&b, "--", before, i), put(&b, "++", after, i);
        } else {
            put(&b, "==", 'k', i);
        }
    }
    return b;
}

enum act { JOIN, TURN, SIDES };

static void act(enum act what, struct bytes first, struct bytes second, struct bytes dest)
{
    size_t written;
    uint32_t number;

    if (what == JOIN) number = zed_join(first.at, first.length, second.at, second.length, dest.at, dest.length, &written);
    else if (what == TURN) number = zed_turn(first.at, first.length, dest.at, dest.length, &written);
    else number = zed_new_side(first.at, first.length, dest.at, dest.length, &written) | zed_new_side(second.at, second.length, dest.at, dest.length, &written);
    if (number != ZED_DONE) printf("refused with %u\n", number), exit(1);
}

static double best(enum act what, struct bytes first, struct bytes second, struct bytes dest)
{
    double least = 1e9;

    for (int i = 0; i < TIMES; i++) {
        double start = now(), taken;

        act(what, first, second, dest);
        taken = now() - start;
        if (taken < least) least = taken;
    }
    return least;
}

int main(void)
{
    static const char *kinds[] = {"all kept", "a tenth changed", "all changed", "half replaced", "all replaced"};

    printf("%d lines of %d bytes: milliseconds; times the two new sides (turn: times half of that); times %d lines\n", MANY, LENGTH, FEW);
    for (size_t k = 0; k < sizeof kinds / sizeof kinds[0]; k++) {
        double took[2][3];

        for (int size = 0; size < 2; size++) {
            int lines = size == 0 ? FEW : MANY;
            struct bytes first = season(kinds[k], 'o', 'm', lines), second = season(kinds[k], 'm', 'n', lines);
            struct bytes dest = lend(first.length + second.length + 1);

            for (int what = JOIN; what <= SIDES; what++) took[size][what] = best((enum act)what, first, second, dest);
            free(first.at), free(second.at), free(dest.at);
        }
        printf("%-16s join %6.2f  %5.2f  %5.2f   turn %6.2f  %5.2f  %5.2f\n", kinds[k], took[1][JOIN], took[1][JOIN] / took[1][SIDES], took[1][JOIN] / took[0][JOIN], took[1][TURN],
               took[1][TURN] / (took[1][SIDES] / 2), took[1][TURN] / took[0][TURN]);
    }
    return 0;
}
