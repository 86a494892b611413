/*
 * Larger budgets never disagree (document 02, wish 5): every budget from 0 to a run's steps, one more, and the largest. From the run's steps on it ends the same, to the
 * last byte of the journal buffer; below them it stops with 29, having made as many steps as the budget, at the place of the step that it wanted.
 */
#include <stdint.h>
#include <stdio.h>
#include <stdlib.h>
#include <string.h>

#include "../include/zed.h"
#include "check.h"
#include "runs.h"

#define TEN_B "bbbbbbbbbb"
#define HUNDRED_B TEN_B TEN_B TEN_B TEN_B TEN_B TEN_B TEN_B TEN_B TEN_B TEN_B

static const char timings[] = "R01 open 06:10 90\nR02 open 06:25 90\nR03 open 07:00 60\n";

/*
 * A script, what it comes to under the largest budget, and the place of the step that is wanted when 0, 1, 2 .. steps are made, all as the plain interpreter
 * (tools/oracle.py) gives them.
 */
static const struct job {
    const char *table, *script;
    size_t room;
    uint64_t number, steps, furthest, place;
    const char *wanted;
} jobs[] = {
    /* done: by W, by the script's end, with tests and groups, with lines cut and joined */
    {timings, "F B/R02/; E/90/120/\nF B/R03/; D\nIS/R04 open 07:15 60/\nW\n", 999, 0, 10, 4, 0, "0 0 0 10 20 20 20 30 32 54"},
    {"a\nb\nc\n", "UT /c/ (E//x/; N); IFEOF W; RPT (D; IFEOF AGP)\nIS/z/\n", 999, 0, 13, 4, 0, "0 8 15 0 8 15 0 19 28 33 36 42 47"},
    {"a\nb\n", "(N; BF (/b/ | /a/); IF /a/ (D) ELSE (E/b/c/))\n0N; 2 IFEOF N\n", 999, 0, 10, 2, 0, "0 1 4 4 20 37 50 52 50 52"},
    {"a\nb\n", "R 1\nx\ny\nZ\nEP/b/bb/; A//!/; PR; SA/b/; P; CL/=/\n", 999, 0, 7, 2, 0, "0 10 20 27 31 38 41"},
    {timings, "RPT (IFEOF AGP; UL/60/ E/90/120/; F/0/; 2(%;<); N)\nM 1; 2N; D 1 2; IS/x/; P; SA/x/; CL/-/\n", 999, 0, 51, 4, 0,
     "0 5 16 23 34 34 40 42 44 40 42 44 48 0 5 16 23 34 34 40 42 44 40 42 44 48 0 5 16 34 34 40 42 44 40 42 44 48 0 5 11 51 56 57 56 57 60 67 74 77 84"},
    {"", "", 0, 0, 0, 1, 0, ""},
    /* with sets of word characters that change in each round */
    {"A-12\nA-12 A\nA\n-12\n12\n", "2(WORD/A-Z0-9\"-/; F W/A/; E W/A/B/; WORD//; N)\nWORD/\"-/; UT W/12/ N; E W/12/13/\n", 999, 0, 20, 5, 0, "0 2 18 18 18 26 36 44 0 2 18 18 26 36 44 47 57 66 57 69"},
    /* with patterns */
    {timings, "F R/0-9#0-9:(2|3)0-9/; EP R/0-9#0-9:0-9#0-9/-/\nWH R/#(a|b)9/ E LR/#90/+/; N; UL PR/#~x/ D; 2E R/#~0/0/\n", 999, 0, 13, 3, 0, "0 0 0 23 47 61 47 74 77 91 92 91 92"},
    /* done, and the unread lines go through the globals: this takes no step */
    {"a\na\na\n", "GE/a/b/; 2GA/b/c/; N\n", 999, 0, 6, 2, 0, "0 9 10 9 10 19"},
    {timings, "2(GE/90/95/; GA/open/-/; CG); 3GB/R/Q/; F B/Q/; F/07:/; P; CL/-/; GE/Q/R/\n", 999, 0, 23, 3, 0,
     "0 2 13 25 0 2 13 25 30 31 30 31 30 31 40 40 40 48 48 48 56 59 66"},
    /* stopped there: a line too long; the journal full */
    {"a\n" HUNDRED_B HUNDRED_B "\n", "GE/b/cc/\n", 999, 25, 1, 1, 9, "0"},
    {"a\nb\na\n", "GE/a/b/; N\n", 13, 26, 2, 2, 11, "0 9"},
    /* stopped at a command, with each number */
    {"a\nb\nc\n", "4N\n", 999, 20, 8, 4, 1, "0 1 0 1 0 1 0 1"},
    {"a\nx\n", "WH N/x/ (N); RPT N\n", 999, 20, 7, 3, 17, "0 9 0 13 17 13 17"},
    {"A-12\nA-12\n", "RPT (IF W/12/ E W/12/7/; N; WORD/\"-/)\n", 999, 20, 12, 3, 25, "0 5 14 25 28 0 5 25 28 0 5 25"},
    {"a b\nab\nb-12\n", "RPT (IF WR/a|A-Z#0-9/ E WR/#(a|b)/x/; N; F BR/~a#(~1)/; SB R/\"-|12/)\n", 999, 21, 12, 4, 41, "0 5 22 38 41 41 41 56 0 5 38 41"},
    {"a\nb\nc\n", "N; F/z/\n", 999, 21, 4, 4, 3, "0 3 3 3"},
    {"a\nb\nc\n", "M *; BF/z/\n", 999, 22, 5, 4, 5, "0 5 5 5 5"},
    {"a\nb\nc\nd\n", "DF /c/; M 2\n", 999, 23, 5, 3, 8, "0 0 0 0 8"},
    {"axa\n", "3E/a/b/\n", 999, 24, 6, 1, 1, "0 1 0 1 0 1"},
    {HUNDRED_B HUNDRED_B "\n", "RPT A/b/" TEN_B TEN_B TEN_B "/\n", 999, 25, 4, 1, 4, "0 4 0 4"},
    {"a\nb\n", "RPT IS/x/\n", 16, 26, 6, 1, 4, "0 4 0 4 0 4"},
    {"ab\n", "RPT >\n", 999, 27, 6, 1, 4, "0 4 0 4 0 4"},
    {"a\nb\n", "2N; P; D . 1\n", 999, 28, 6, 3, 7, "0 1 0 1 4 7"},
    {"a\nb\nc\n", "RPT CL/-/\n", 999, 30, 6, 4, 4, "0 4 0 4 0 4"},
    {timings, "GE/0/1/; 16GE/90/95/\n", 999, 31, 33, 1, 11, "0 9 11 9 11 9 11 9 11 9 11 9 11 9 11 9 11 9 11 9 11 9 11 9 11 9 11 9 11 9 11 9 11"},
};

/* Runs that are refused, with a work area of so many numbers less than they need. */
static const struct refusal {
    const char *table, *script;
    size_t missing, room;
    uint64_t number, place;
} refusals[] = {
    {"a\n", "N", 0, 9, 1, 0}, {"a\n", "N; Q\n", 0, 9, 2, 3}, {"a\n", "N; F\n", 0, 9, 3, 4},    {"a\n", "E N/a/b/\n", 0, 9, 4, 2}, {"a\n", "N; (N\n", 0, 9, 5, 6},
    {"a\n", "N; WORD/a-/\n", 0, 9, 33, 9}, {"a\n", "N; F R/a-/\n", 0, 9, 34, 9}, {"a\n", "I\nx\n", 0, 9, 6, 4}, {"a", "N\n", 0, 9, 7, 0}, {"a\n", "N\n", 1, 9, 8, 0}, {"a\n", "N\n", 0, 3, 9, 0},
};

/* Scripts that never end, and the place of the step that they want in every round. */
static const struct {
    const char *script;
    const char *wanted;
} endless[] = {{"RPT ()\n", "0"}, {"WH N/x/ ()\n", "0"}, {"RPT (N; P)\n", "0 5 8"}, {"RPT (GE/a/b/; CG)\n", "0 5 14"}};

static int same_outcome(const struct outcome *o, const struct outcome *other, size_t room) {
    return memcmp(&o->answer, &other->answer, sizeof o->answer) == 0 && memcmp(o->journal, other->journal, room) == 0;
}

/* The old side of the journal is the table. */
static int keeps_old(const struct outcome *o, const char *table) {
    uint8_t side[1024];
    size_t written = 0;

    return zed_old_side(o->journal, (size_t)o->answer.length, side, sizeof side, &written) == ZED_DONE && written == strlen(table) && memcmp(side, table, written) == 0;
}

static int is_spent(const struct outcome *o, const struct job *job, uint32_t budget, uint64_t wanted) {
    return o->kept && o->answer.number == ZED_BUDGET_SPENT && o->answer.steps == budget && o->answer.place == wanted && keeps_old(o, job->table);
}

/* One budget: the same as the whole run from its steps on, spent below them. No less is read than with the budget before. */
static void under(const struct job *job, const struct outcome *whole, uint32_t budget, const char **wanted, uint64_t *read) {
    struct outcome o = run(job->table, job->script, budget, job->room);
    char name[96];
    int good;

    if (budget < whole->answer.steps) {
        char *end;
        uint64_t place = strtoull(*wanted, &end, 10);
        good = end != *wanted && is_spent(&o, job, budget, place);
        *wanted = end;
    } else {
        good = o.kept && same_outcome(&o, whole, job->room);
    }
    snprintf(name, sizeof name, "%.60s: budget %lu", job->script, (unsigned long)budget);
    check(name, good && o.answer.furthest >= *read && o.answer.furthest <= whole->answer.furthest);
    *read = o.answer.furthest;
    free(o.journal);
}

static void every_budget(const struct job *job) {
    struct outcome whole = run(job->table, job->script, UINT32_MAX, job->room);
    const char *wanted = job->wanted;
    uint64_t read = 1;
    char name[96];

    snprintf(name, sizeof name, "%.60s: the largest budget", job->script);
    check(name, whole.kept && whole.answer.number == job->number && whole.answer.steps == job->steps && whole.answer.furthest == job->furthest
                    && whole.answer.place == job->place && keeps_old(&whole, job->table));
    for (uint32_t budget = 0; budget <= job->steps + 1; budget++) under(job, &whole, budget, &wanted, &read);
    under(job, &whole, UINT32_MAX - 1, &wanted, &read);
    free(whole.journal);
}

/* As a depot does it: the budget is raised until the run ends otherwise, with the work area and the journal buffer as the run before left them. */
static void raised(const struct job *job) {
    struct outcome whole = run(job->table, job->script, UINT32_MAX, job->room), o = {.journal = lend(job->room)};
    size_t work_length = 2 * strlen(job->script) + 64;
    uint32_t *work = lend(work_length * sizeof *work), budget = 0;

    do {
        zed_run((const uint8_t *)job->table, strlen(job->table), (const uint8_t *)job->script, strlen(job->script), budget, work, work_length, o.journal, job->room,
                &o.answer);
        budget = 2 * budget + 1;
    } while (o.answer.number == ZED_BUDGET_SPENT && budget < 1000);
    check("raised in the same memory", same_outcome(&o, &whole, job->room));
    free(whole.journal);
    free(o.journal);
    free(work);
}

static void refused(const struct refusal *r) {
    static const uint32_t budgets[] = {0, 1, 2, UINT32_MAX};

    for (size_t i = 0; i < sizeof budgets / sizeof budgets[0]; i++) {
        struct outcome o = run_bytes(r->table, strlen(r->table), r->script, strlen(r->script), budgets[i], 2 * strlen(r->script) + 64 - r->missing, r->room);
        check(r->script, o.kept && o.answer.number == r->number && o.answer.place == r->place && o.answer.steps == 0 && o.answer.furthest == 0 && o.answer.length == 0
                             && all_are(o.journal, r->room, FILL));
        free(o.journal);
    }
}

static void goes_on(const char *script, const char *wanted) {
    struct job job = {.table = "a\nb\n", .script = script, .room = 99};
    const char *at = wanted;

    for (uint32_t budget = 0; budget < 100; budget++) {
        struct outcome o = run(job.table, script, budget, job.room);
        char *end;
        uint64_t place = strtoull(at, &end, 10);

        check(script, is_spent(&o, &job, budget, place));
        at = *end == '\0' ? wanted : end;
        free(o.journal);
    }
}

int main(void) {
    for (size_t i = 0; i < sizeof jobs / sizeof jobs[0]; i++) {
        every_budget(&jobs[i]);
        raised(&jobs[i]);
    }
    for (size_t i = 0; i < sizeof refusals / sizeof refusals[0]; i++) refused(&refusals[i]);
    for (size_t i = 0; i < sizeof endless / sizeof endless[0]; i++) goes_on(endless[i].script, endless[i].wanted);
    return checked();
}
