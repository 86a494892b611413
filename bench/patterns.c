/*
 * What a search with R takes. Times by form over 65,535 lines, beside a plain string: where one line near the end has a time, and where all but that one have (the search is
 * then for the line without). Then patterns of some 240 bytes that are hard to match (brackets eight deep, each with any number of the next; alternatives that say the same; many
 * parts of any number), none of which is found, over lines of up to 255 bytes of a, and how that grows with the line's length. Processor time, the best of so many runs, all
 * in one run of this program.
 *
 *     tools/library.sh
 *     gcc -std=c11 -O2 -Iinclude -o patterns bench/patterns.c target/staticlib/libzed.a
 *     ./patterns
 */
#include "timing.h"

enum { HARD = 40, FULL = 255, TIMES = 7, PATTERN = 245 };

/* The best time of a search that comes to this number. */
static double best(struct bytes table, size_t lines, const char *script, uint64_t wanted)
{
    struct bytes journal = lend(table.length + 2 * lines + 1024);
    double least = best_run(table, script, journal, wanted, TIMES);

    free(journal.at);
    return least;
}

/* Lines with a code and a number; one near the end has this time, the others that. */
static struct bytes timings(size_t lines, const char *one, const char *others)
{
    struct bytes b = lend(lines * 32);

    b.length = 0;
    for (size_t i = 1; i <= lines; i++) b.length += (size_t)sprintf((char *)b.at + b.length, "R%05zu open %s 90\n", i, i == lines - 5 ? one : others);
    return b;
}

/* Lines of so many bytes a. */
static struct bytes all_a(size_t lines, size_t length)
{
    struct bytes b = lend(lines * (length + 1));

    memset(b.at, 'a', b.length);
    for (size_t i = 1; i <= lines; i++) b.at[i * (length + 1) - 1] = '\n';
    return b;
}

/* Searches that find the line near the end, a plain one first. */
static const char *const with_time[] = {
    "F/12:34/\n", "F R/12:34/\n", "F R/0-90-9:0-90-9/\n", "F R/0-9#0-9:0-9#0-9/\n", "F R/(0|1|2)0-9:0-50-9/\n", "F WR/0-9#0-9:0-9#0-9/\n", "F LR/0-9#0-9:0-9#0-9/\n",
    "F R/#~::/\n", "F ER/:#~./\n",
};

static const char *const without_time[] = {
    "F N/12:34/\n", "F NR/12:34/\n", "F NR/0-90-9:0-90-9/\n", "F NR/0-9#0-9:0-9#0-9/\n", "F NR/(0|1|2)0-9:0-50-9/\n", "F NWR/0-9#0-9:0-9#0-9/\n", "F NLR/0-9#0-9:0-9#0-9/\n",
};

enum { MOST = 16 };

static void by_form(const char *name, const char *const searches[], size_t n, const char *one, const char *others)
{
    struct bytes few = timings(FEW, one, others), many = timings(MANY, one, others);
    double took[MOST], less[MOST], plain;

    for (size_t i = 0; i < n; i++) {
        took[i] = best(many, MANY, searches[i], ZED_DONE);
        less[i] = best(few, FEW, searches[i], ZED_DONE);
    }
    /* the plain one again: its first time is the program's first run */
    plain = best(many, MANY, searches[0], ZED_DONE);
    if (plain < took[0]) took[0] = plain;
    printf("%-32s %9s %9s %9s\n", name, "ms", "x plain", "x 6553");
    for (size_t i = 0; i < n; i++) printf("%-32.*s %9.2f %9.2f %9.1f\n", (int)strlen(searches[i]) - 1, searches[i], took[i], took[i] / took[0], took[i] / less[i]);
    printf("\n");
    free(few.at), free(many.at);
}

/* Parts, each as often as a pattern holds it, and then a byte that no line has: one of two, so that no byte is known that every match has. */
static const char *const parts[] = {
    "a", "#a", "~b", "(a|a)", "#(a|a)", "(a|a)#(a|a)", "#(#(#(#(#(#(#(#a)))))))", "#(a#(a#(a#(a#(a#(a#(a#(a|))))))))", "(a|(a|(a|(a|(a|(a|(a|(a|))))))))",
    "#(a|aa|aaa|aaaa)", "#(#a#a)", "(|a)", "#~b",
};

static void hard(void)
{
    double plain = 0;

    printf("%-44s %6s %12s %9s %9s\n", "not found in lines of 255 a", "bytes", "us a line", "x plain", "x 127");
    for (size_t i = 0; i <= sizeof parts / sizeof parts[0]; i++) {
        char script[FULL + 2] = "F R/";
        const char *part = i == 0 ? "a" : parts[i - 1], *end = i == 0 ? "b" : "(b|c)";
        size_t bytes = 0;
        double took[2];

        if (i == 0) strcpy(script, "F/");
        for (; bytes + strlen(part) < (i == 0 ? 100 : PATTERN); bytes += strlen(part)) strcat(script, part);
        strcat(script, end);
        strcat(script, "\n");
        for (int half = 0; half < 2; half++) {
            struct bytes table = all_a(HARD, half ? FULL / 2 : FULL);
            took[half] = best(table, HARD, script, ZED_MET_EOF);
            free(table.at);
        }
        if (i == 0) plain = took[0];
        printf("%-44s %6zu %12.2f %9.1f %9.2f\n", i == 0 ? "a plain string of 100 a and b" : part, bytes + strlen(end), took[0] * 1e3 / HARD, took[0] / plain, took[0] / took[1]);
    }
}

int main(void)
{
    if (!knows("F R/a/\n")) {
        puts("the library does not know R");
        return 0;
    }
    by_form("the only time is near the end", with_time, sizeof with_time / sizeof with_time[0], "12:34", "12.34");
    by_form("all but one near the end", without_time, sizeof without_time / sizeof without_time[0], "12.34", "12:34");
    hard();
    return 0;
}
