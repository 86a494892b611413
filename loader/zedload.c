/*
 * zedload: runs a season's script against a door timing table. A loader that a depot can use as it is or copy from.
 *
 *   zedload [-o NEW] [-j JOURNAL] [-l LISTING] [-b BUDGET] [-r ROOM] TABLE SCRIPT
 *
 * The table is replaced only when the whole script has run; the journal of every run that was not refused is filed first. A file is
 * replaced by a new one that is written, synced and renamed, so that a reader sees the old file or the new one and nothing between.
 * The exit status tells what happened: 0 done, 1 stopped, 2 refused, 3 trouble with files, memory or the command line.
 */
#include "files.h"
#include "words.h"
#include "zed.h"

#include <errno.h>
#include <signal.h>
#include <stdio.h>
#include <stdlib.h>
#include <string.h>

enum { DONE = 0, STOPPED = 1, REFUSED = 2, TROUBLE = 3 };

/* One byte more than the longest table (65,535 lines of 255 bytes and LF) and the longest script: what is longer is refused anyway. */
enum { TABLE_READ = 65535 * 256 + 1, SCRIPT_READ = 16384 + 1 };

/* What a journal may grow by beyond the table's own, unless -r says otherwise. */
enum { ROOM = 1 << 20 };

struct options {
    const char *table, *script, *new_table, *journal, *listing;
    uint32_t budget;
    size_t room;
};

struct job {
    struct bytes table, script, journal;
    zed_answer answer;
};

static int usage(void)
{
    fputs("usage: zedload [-o NEW] [-j JOURNAL] [-l LISTING] [-b BUDGET] [-r ROOM] TABLE SCRIPT\n"
          "  -o NEW      where the new table goes; otherwise TABLE is replaced\n"
          "  -j JOURNAL  where the journal goes; otherwise TABLE.journal\n"
          "  -l LISTING  where the listing of the new table goes; otherwise none is written\n"
          "  -b BUDGET   the most steps to run, 0 to 4294967295; otherwise 4294967295\n"
          "  -r ROOM     bytes that the journal may grow by; otherwise 1048576\n",
          stderr);
    return TROUBLE;
}

/* A whole decimal number up to `most`. */
static int number(const char *text, unsigned long long most, unsigned long long *value)
{
    char *end;

    if (text[0] < '0' || text[0] > '9')
        return -1;
    errno = 0;
    *value = strtoull(text, &end, 10);
    return errno == 0 && *end == '\0' && *value <= most ? 0 : -1;
}

static int one_option(struct options *o, char letter, const char *value)
{
    unsigned long long n;

    switch (letter) {
    case 'o':
        o->new_table = value;
        return 0;
    case 'j':
        o->journal = value;
        return 0;
    case 'l':
        o->listing = value;
        return 0;
    case 'b':
        if (number(value, UINT32_MAX, &n) < 0)
            return -1;
        o->budget = (uint32_t)n;
        return 0;
    case 'r':
        if (number(value, (unsigned long long)1 << 40, &n) < 0)
            return -1;
        o->room = (size_t)n;
        return 0;
    }
    return -1;
}

static int read_options(int argc, char **argv, struct options *o)
{
    int i = 1;

    *o = (struct options){ .budget = UINT32_MAX, .room = ROOM };
    while (i + 1 < argc && argv[i][0] == '-') {
        if (strlen(argv[i]) != 2 || one_option(o, argv[i][1], argv[i + 1]) < 0)
            return -1;
        i += 2;
    }
    if (argc - i != 2)
        return -1;
    o->table = argv[i];
    o->script = argv[i + 1];
    if (o->new_table == NULL)
        o->new_table = o->table;
    return 0;
}

/* No file is written over another one of this run: the journal must not become the table, nor the script the listing. */
static int clashes(const struct options *o)
{
    const char *written[3] = { o->new_table, o->journal, o->listing };

    for (int i = 0; i < 3; i++) {
        if (written[i] == NULL)
            continue;
        if (same_file(written[i], o->script) || (i > 0 && same_file(written[i], o->table)))
            return 1;
        for (int k = 0; k < i; k++)
            if (written[k] != NULL && same_file(written[i], written[k]))
                return 1;
    }
    return 0;
}

/* Lends the run its buffers and runs it. The journal buffer holds the table's own journal, two bytes a line more, and room to grow. */
static int run(const struct options *o, struct job *job)
{
    size_t opening = job->table.length + 2 * count_bytes(&job->table, '\n');
    size_t work_length = 2 * job->script.length + 64;
    uint32_t *work = malloc(work_length * sizeof *work);
    int lent = work != NULL && make_bytes(&job->journal, opening + o->room) == 0;

    if (lent) {
        zed_run(job->table.at, job->table.length, job->script.at, job->script.length, o->budget, work, work_length,
                job->journal.at, job->journal.length, &job->answer);
        job->journal.length = (size_t)job->answer.length;
    }
    free(work);
    return lent ? 0 : -1;
}

/* A reader of the journal, and by how much its text can be longer than the journal. */
typedef uint32_t reader(const uint8_t *, size_t, uint8_t *, size_t, size_t *);

static int read_journal(reader *read, const struct job *job, struct bytes *text)
{
    size_t lines = count_bytes(&job->journal, '\n'), length = 0;

    if (make_bytes(text, job->journal.length + 7 * lines) < 0)
        return -1;
    if (read(job->journal.at, job->journal.length, text->at, text->length, &length) != ZED_DONE)
        return -1;
    text->length = length;
    return 0;
}

/* Writes one file and says in words what went wrong. */
static enum filed file(const char *path, const char *what, const struct bytes *text, const char *like)
{
    int error = 0;
    enum filed result = replace_file(path, text, like, &error);

    if (result == FILED_NOT_SYNCED)
        fprintf(stderr, "zedload: the %s is in %s, but the folder could not be synced (%s): a power failure may undo it.\n", what, path,
                strerror(error));
    if (result == NOT_FILED)
        fprintf(stderr, "zedload: the %s could not be written to %s (%s). That file is as it was.\n", what, path, strerror(error));
    return result;
}

/* Writes what a reader makes of the journal. */
static enum filed file_read(reader *read, const char *path, const char *what, const struct job *job, const char *like)
{
    struct bytes text = { 0 };
    enum filed result = NOT_FILED;

    if (read_journal(read, job, &text) == 0)
        result = file(path, what, &text, like);
    else
        fprintf(stderr, "zedload: there is not enough memory for the %s.\n", what);
    free_bytes(&text);
    return result;
}

/* The journal, then the listing, then, only after a run that is done, the new table. What fails keeps what follows from being written. */
static enum filed file_all(const struct options *o, const struct job *job)
{
    enum filed result = file(o->journal, "journal", &job->journal, o->table);

    if (result == FILED && o->listing != NULL)
        result = file_read(zed_listing, o->listing, "listing", job, o->table);
    if (result != FILED)
        return NOT_FILED;
    if (job->answer.number != ZED_DONE)
        return FILED;
    return file_read(zed_new_side, o->new_table, "new table", job, o->table);
}

static int report(const struct options *o, const struct job *job)
{
    const zed_answer *a = &job->answer;

    if (a->number == ZED_DONE) {
        printf("Done: %s is updated. Steps %llu, furthest line read %llu, journal in %s.\n", o->new_table, (unsigned long long)a->steps,
               (unsigned long long)a->furthest, o->journal);
        return DONE;
    }
    fprintf(stderr, "Stopped: the table is not updated. Steps %llu, furthest line read %llu, journal in %s.\n", (unsigned long long)a->steps,
            (unsigned long long)a->furthest, o->journal);
    say_number(stderr, a->number);
    if (a->number == ZED_BUDGET_SPENT)
        say_going_on(stderr, a->steps);
    show_stop(stderr, o->script, &job->script, (size_t)a->place);
    return STOPPED;
}

static int refused(const struct options *o, const struct job *job)
{
    const zed_answer *a = &job->answer;

    fputs("Refused: nothing was run, and no file is changed.\n", stderr);
    say_number(stderr, a->number);
    if ((a->number >= ZED_UNKNOWN_COMMAND && a->number <= ZED_NO_Z_LINE) || a->number == ZED_BAD_WORD_SET || a->number == ZED_BAD_PATTERN)
        show_place(stderr, o->script, &job->script, (size_t)a->place);
    return REFUSED;
}

static int work(const struct options *o, struct job *job)
{
    if (read_file(o->table, TABLE_READ, &job->table) < 0) {
        fprintf(stderr, "zedload: the table %s cannot be read (%s). Nothing was run.\n", o->table, strerror(errno));
        return TROUBLE;
    }
    if (read_file(o->script, SCRIPT_READ, &job->script) < 0) {
        fprintf(stderr, "zedload: the script %s cannot be read (%s). Nothing was run.\n", o->script, strerror(errno));
        return TROUBLE;
    }
    if (run(o, job) < 0) {
        fputs("zedload: there is not enough memory. Nothing was run.\n", stderr);
        return TROUBLE;
    }
    if (zed_is_refusal(job->answer.number))
        return refused(o, job);
    switch (file_all(o, job)) {
    case FILED:
        return report(o, job);
    case FILED_NOT_SYNCED:
        return TROUBLE;
    default:
        fprintf(stderr, "zedload: the script was run, but %s is not updated.\n", o->new_table);
        return TROUBLE;
    }
}

int main(int argc, char **argv)
{
    struct options o;
    struct job job = { 0 };
    char *journal = NULL;
    int status = TROUBLE;

    /* a file that would grow too large is an error to report, not a signal to die of */
    signal(SIGXFSZ, SIG_IGN);
    if (read_options(argc, argv, &o) < 0)
        return usage();
    if (o.journal == NULL)
        o.journal = journal = with_ending(o.table, ".journal");
    if (o.journal == NULL) {
        fputs("zedload: there is not enough memory. Nothing was run.\n", stderr);
    } else if (clashes(&o)) {
        fputs("zedload: two of the files are one and the same. Nothing was run.\n", stderr);
    } else {
        status = work(&o, &job);
    }
    free_bytes(&job.table);
    free_bytes(&job.script);
    free_bytes(&job.journal);
    free(journal);
    return status;
}
