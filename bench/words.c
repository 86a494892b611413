/*
 * What a search with W takes, where letters and digits count and where WORD has named what counts, beside the same search without W, in one run of this program; and how
 * that grows with the number of lines. Processor time, the best of fifteen. With a library that does not know WORD yet (it refuses it with 2) those columns stay empty, so
 * that the same program measures before and after.
 *
 *     tools/library.sh
 *     gcc -std=c11 -O2 -Iinclude -o words bench/words.c target/staticlib/libzed.a
 *     ./words
 */
#include "timing.h"

enum { SHORT = 20, LONG = 96, TIMES = 15 };

/* A search, and the lines that it goes over: it is not found, or found in a line near the end. */
struct job {
    const char *name;
    const char *plain, *with_w;
    uint64_t number;
    void (*line)(char *line, int i, int lines, size_t length);
};

static void all_a(char *line, int i, int lines, size_t length)
{
    (void)i, (void)lines;
    memset(line, 'a', length);
}

static void timing(char *line, int i, int lines, size_t length)
{
    char start[32];
    int n;

    (void)lines;
    memset(line, '.', length);
    n = snprintf(start, sizeof start, "R%05d open %02d:%02d 90", i, i / 60 % 24, i % 60);
    memcpy(line, start, (size_t)n < length ? (size_t)n : length);
}

/* The code A12 stands in each line, as a part of a longer word. */
static void code(char *line, int i, int lines, size_t length)
{
    timing(line, i, lines, length);
    memcpy(line + length - 5, "BA12 ", 5);
}

static const struct job jobs[] = {
    { "each place fails", "F/ab/\n", "F W/a/\n", ZED_MET_EOF, all_a },
    { "one place a line fails", "F/A12x/\n", "F W/A12/\n", ZED_MET_EOF, code },
    { "a rare string", "F/R%05d/\n", "F W/R%05d/\n", ZED_DONE, timing },
};

/* The sets: as at first; the same bytes and - by ranges; the same bytes one by one. */
static const char *const sets[] = {
    "",
    "WORD/A-Za-z0-9\"-/\n",
    "WORD/ABCDEFGHIJKLMNOPQRSTUVWXYZabcdefghijklmnopqrstuvwxyz0123456789/\n",
};

enum { SETS = sizeof sets / sizeof sets[0], PLAIN = SETS, COLUMNS };

static struct bytes table_of(const struct job *job, int lines, size_t length)
{
    struct bytes b = lend((size_t)lines * (length + 1));

    b.length = 0;
    for (int i = 1; i <= lines; i++) {
        job->line((char *)b.at + b.length, i, lines, length);
        b.length += length;
        b.at[b.length++] = '\n';
    }
    return b;
}

/* The times of a job: with W under each set, and without W. */
static void measure(const struct job *job, int lines, size_t length, int word, double took[COLUMNS])
{
    struct bytes table = table_of(job, lines, length), journal = lend(table.length + 4 * (size_t)lines + 1024);
    char search[64], script[256];

    for (int s = 0; s < COLUMNS; s++) {
        if (s > 0 && s < PLAIN && !word) continue;
        snprintf(search, sizeof search, s == PLAIN ? job->plain : job->with_w, lines - 5);
        snprintf(script, sizeof script, "%s%s", s == PLAIN ? "" : sets[s], search);
        took[s] = best_run(table, script, journal, job->number, TIMES);
    }
    free(table.at), free(journal.at);
}

static void row(const struct job *job, size_t length, int word)
{
    double few[COLUMNS] = { 0 }, many[COLUMNS] = { 0 };

    measure(job, FEW, length, word, few);
    measure(job, MANY, length, word, many);
    printf("%-24s %3zu  %7.2f", job->name, length, many[PLAIN]);
    for (int s = 0; s < SETS; s++) {
        if (s > 0 && !word)
            printf("  %7s %5s %5s %5s", "-", "-", "-", "-");
        else
            printf("  %7.2f %5.2f %5.2f %5.1f", many[s], many[s] / many[PLAIN], many[s] / many[0], many[s] / few[s]);
    }
    printf("\n");
}

int main(void)
{
    int word = knows("WORD/a/\n");

    printf("%d lines: milliseconds without W; then with W, where letters and digits count, where WORD names them and - by ranges, and one by one:\n", MANY);
    printf("milliseconds, times without W, times letters and digits, times %d lines%s\n", FEW, word ? "" : "; the library does not know WORD");
    for (size_t j = 0; j < sizeof jobs / sizeof jobs[0]; j++) {
        row(&jobs[j], SHORT, word);
        row(&jobs[j], LONG, word);
    }
    return 0;
}
