/*
 * Runs files of cases of runs, of joining and of turning round (see tools/vectors.py) over the C interface; a line's fields tell which it is:
 *
 *     gcc -std=c11 -O2 -Iinclude -o guarded tools/guarded.c target/staticlib/libzed.a
 *     ./guarded FILE..
 *
 * Each run is made twice, with all that is lent ending, and then beginning, at a page that may not be touched; table and script may not be written. Compared are
 * the five numbers, every byte of the journal buffer, and the old side read out of the journal, which must be the table. Then it is run under other budgets: its own
 * steps, one less, and the largest, or, where its budget was spent, one more. Joining and turning round are called in the same two ways, the journals may not be written;
 * compared are number, length and every byte of the destination.
 */
#define _DEFAULT_SOURCE
#include <stdint.h>
#include <stdio.h>
#include <stdlib.h>
#include <string.h>
#include <sys/mman.h>

#include "../include/zed.h"
#include "../tests/check.h"

enum { PAGE = 4096, PAGES = 64, BEFORE = 7, TURN_FIELDS = 5, JOIN_FIELDS = 6, RUN_FIELDS = 11, LINE = 1 << 20 };

/* A page that may not be touched, then pages that may, then another one. */
typedef struct area {
    uint8_t *first;
    size_t size;
} area;

static area new_area(void) {
    size_t size = (size_t)PAGES * PAGE;
    uint8_t *all = mmap(NULL, size + 2 * PAGE, PROT_NONE, MAP_PRIVATE | MAP_ANONYMOUS, -1, 0);
    area made = {all + PAGE, size};

    if (all == MAP_FAILED || mprotect(made.first, size, PROT_READ | PROT_WRITE) != 0) {
        perror("guarded");
        exit(2);
    }
    return made;
}

static void allow(area a, int rights) {
    if (mprotect(a.first, a.size, rights) != 0) {
        perror("guarded");
        exit(2);
    }
}

/* So many bytes at the area's end, or at its start. */
static uint8_t *lent(area a, size_t bytes, int at_end) {
    return at_end ? a.first + a.size - bytes : a.first;
}

/* Journals to join or to turn round are lent as table and script are. */
static area tables, scripts, works, journals, answers, sides;

typedef struct run_case {
    uint8_t *table, *script, *journal;
    size_t table_length, script_length, work, room;
    uint32_t budget;
    uint64_t number, steps, furthest, length, place;
} run_case;

/* Hexadecimal digits to bytes, in their place; `-` is no byte. */
static size_t unhexed(char *word) {
    size_t n = 0;
    unsigned byte;

    if (strcmp(word, "-") == 0) return 0;
    for (; sscanf(word + 2 * n, "%2x", &byte) == 1; n++) word[n] = (char)byte;
    return n;
}

/* The words of a line, and how many they are. */
static int split(char *line, char *field[RUN_FIELDS]) {
    int n = 0;

    for (char *word = strtok(line, " \n"); word != NULL && n < RUN_FIELDS; word = strtok(NULL, " \n")) field[n++] = word;
    return n;
}

static int read_case(char **field, run_case *c) {
    c->table = (uint8_t *)field[0];
    c->table_length = unhexed(field[0]);
    c->script = (uint8_t *)field[1];
    c->script_length = unhexed(field[1]);
    c->budget = (uint32_t)strtoul(field[2], NULL, 10);
    c->work = strtoul(field[3], NULL, 10);
    c->room = strtoul(field[4], NULL, 10);
    c->number = strtoull(field[5], NULL, 10);
    c->steps = strtoull(field[6], NULL, 10);
    c->furthest = strtoull(field[7], NULL, 10);
    c->length = strtoull(field[8], NULL, 10);
    c->place = strtoull(field[9], NULL, 10);
    c->journal = (uint8_t *)field[10];
    return unhexed(field[10]) == c->length && c->table_length <= tables.size && c->script_length <= scripts.size && 4 * c->work <= works.size
        && c->length <= c->room && c->room <= journals.size;
}

static int all_are(const uint8_t *bytes, size_t n, uint8_t b) {
    for (size_t i = 0; i < n; i++)
        if (bytes[i] != b) return 0;
    return 1;
}

static int same_values(const run_case *c, const zed_answer *a) {
    return a->number == c->number && a->steps == c->steps && a->furthest == c->furthest && a->length == c->length && a->place == c->place;
}

static int old_side_is_table(const run_case *c, const uint8_t *journal, int at_end) {
    uint8_t *side = lent(sides, c->table_length, at_end);
    size_t written;

    return zed_old_side(journal, c->length, side, c->table_length, &written) == ZED_DONE && written == c->table_length
        && memcmp(side, c->table, c->table_length) == 0;
}

/* The case under some budget: the answer, and the journal buffer afterwards. */
static zed_answer *run_under(const run_case *c, uint32_t budget, int at_end, uint8_t **left) {
    uint8_t *table = lent(tables, c->table_length, at_end), *script = lent(scripts, c->script_length, at_end);
    uint8_t *journal = lent(journals, c->room, at_end);
    uint32_t *work = (uint32_t *)(void *)lent(works, 4 * c->work, at_end);
    zed_answer *answer = (zed_answer *)(void *)lent(answers, sizeof(zed_answer), at_end);
    uint64_t number;

    memcpy(table, c->table, c->table_length);
    memcpy(script, c->script, c->script_length);
    memset(journal, BEFORE, c->room);
    allow(tables, PROT_READ);
    allow(scripts, PROT_READ);
    number = zed_run(table, c->table_length, script, c->script_length, budget, work, c->work, journal, c->room, answer);
    allow(tables, PROT_READ | PROT_WRITE);
    allow(scripts, PROT_READ | PROT_WRITE);
    *left = journal;
    return number == answer->number ? answer : NULL;
}

/* The run comes to what the case says. */
static int agrees(const run_case *c, uint32_t budget, int at_end) {
    uint8_t *journal;
    const zed_answer *answer = run_under(c, budget, at_end, &journal);

    if (answer == NULL || !same_values(c, answer)) return 0;
    if (zed_is_refusal(c->number)) return all_are(journal, c->room, BEFORE);
    return memcmp(journal, c->journal, c->length) == 0 && all_are(journal + c->length, c->room - c->length, 0) && old_side_is_table(c, journal, at_end);
}

/* It stops with 29 after so many steps. */
static int is_spent(const run_case *c, uint32_t budget) {
    uint8_t *journal;
    const zed_answer *answer = run_under(c, budget, 1, &journal);

    return answer != NULL && answer->number == ZED_BUDGET_SPENT && answer->steps == budget && answer->furthest <= c->furthest;
}

/* It makes one step more, and reads no less. */
static int goes_on(const run_case *c) {
    uint8_t *journal;
    const zed_answer *answer = run_under(c, c->budget + 1, 1, &journal);

    return answer != NULL && answer->steps == (uint64_t)c->budget + 1 && answer->furthest >= c->furthest;
}

/* Document 02, wish 5: the steps that were made are budget enough, and the largest budget changes nothing; one step less is spent; a spent budget goes on. */
static int budgets_agree(const run_case *c) {
    if (c->number == ZED_BUDGET_SPENT) return c->steps == c->budget && (c->budget == UINT32_MAX || goes_on(c));
    return agrees(c, (uint32_t)c->steps, 1) && agrees(c, UINT32_MAX, 1) && (c->steps == 0 || is_spent(c, (uint32_t)c->steps - 1));
}

/* A case of joining; of turning round where there is no second journal. */
typedef struct journals_case {
    uint8_t *first, *second, *bytes;
    size_t first_length, second_length, room, length;
    uint32_t number;
} journals_case;

static int read_journals(char **field, int given, journals_case *c) {
    c->first = (uint8_t *)field[0];
    c->first_length = unhexed(field[0]);
    c->second = given == 2 ? NULL : (uint8_t *)field[1];
    c->second_length = given == 2 ? 0 : unhexed(field[1]);
    field += given;
    c->room = strtoul(field[-1], NULL, 10);
    c->number = (uint32_t)strtoul(field[0], NULL, 10);
    c->length = strtoul(field[1], NULL, 10);
    c->bytes = (uint8_t *)field[2];
    return unhexed(field[2]) == c->length && c->first_length <= tables.size && c->second_length <= scripts.size && c->length <= c->room && c->room <= journals.size;
}

/* Joining or turning round gives what the case says, and touches no byte past it. */
static int joins_to(const journals_case *c, int at_end) {
    uint8_t *first = lent(tables, c->first_length, at_end), *second = lent(scripts, c->second_length, at_end);
    uint8_t *dest = lent(journals, c->room, at_end);
    size_t *written = (size_t *)(void *)lent(answers, sizeof(size_t), at_end);
    uint32_t number;

    memcpy(first, c->first, c->first_length);
    if (c->second != NULL) memcpy(second, c->second, c->second_length);
    memset(dest, BEFORE, c->room);
    *written = c->room + 1;
    allow(tables, PROT_READ);
    allow(scripts, PROT_READ);
    if (c->second != NULL)
        number = zed_join(first, c->first_length, second, c->second_length, dest, c->room, written);
    else
        number = zed_turn(first, c->first_length, dest, c->room, written);
    allow(tables, PROT_READ | PROT_WRITE);
    allow(scripts, PROT_READ | PROT_WRITE);
    return number == c->number && *written == c->length && memcmp(dest, c->bytes, c->length) == 0 && all_are(dest + c->length, c->room - c->length, BEFORE);
}

static int run_line(char *line) {
    char *field[RUN_FIELDS];
    int fields = split(line, field);
    run_case c;
    journals_case j;

    if (fields == RUN_FIELDS) return read_case(field, &c) && agrees(&c, c.budget, 1) && agrees(&c, c.budget, 0) && budgets_agree(&c);
    if (fields != JOIN_FIELDS && fields != TURN_FIELDS) return 0;
    return read_journals(field, fields - 3, &j) && joins_to(&j, 1) && joins_to(&j, 0);
}

static void run_file(const char *path) {
    static char line[LINE];
    char name[256];
    FILE *file = fopen(path, "r");

    check(path, file != NULL);
    if (file == NULL) return;
    for (int i = 1; fgets(line, sizeof line, file) != NULL; i++) {
        snprintf(name, sizeof name, "%.200s, line %d", path, i);
        check(name, run_line(line));
    }
    fclose(file);
}

int main(int count, char **paths) {
    if (count < 2) {
        fputs("guarded FILE..\n", stderr);
        return 2;
    }
    tables = new_area();
    scripts = new_area();
    works = new_area();
    journals = new_area();
    answers = new_area();
    sides = new_area();
    for (int i = 1; i < count; i++) run_file(paths[i]);
    return checked();
}
