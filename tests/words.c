/*
 * The loader's words: every number that a run, a reader of journals or joining can end with has words of its own, and says whose matter it is; what a larger budget would do, at the largest and one below it.
 */
#define _POSIX_C_SOURCE 200809L
#include <stdint.h>
#include <stdio.h>
#include <stdlib.h>
#include <string.h>

#include "../loader/words.c"
#include "check.h"

/* What is said, as text: of a number, or of the steps of a spent budget. */
static char *said(void (*say)(FILE *, uint64_t), uint64_t about) {
    char *text = NULL;
    size_t length = 0;
    FILE *out = open_memstream(&text, &length);

    if (out == NULL) exit(2);
    say(out, about);
    if (fclose(out) != 0) exit(2);
    return text;
}

static void has_words(uint64_t number) {
    char *text = said(say_number, number), name[64], shown[32];

    snprintf(name, sizeof name, "words for number %llu", (unsigned long long)number);
    snprintf(shown, sizeof shown, ". (%llu) ", (unsigned long long)number);
    check(name, strstr(text, shown) != NULL && strstr(text, "ended with number") == NULL && (strstr(text, "This is for") != NULL || strstr(text, "its author should") != NULL));
    free(text);
}

static void going_on(uint64_t steps, const char *has, const char *lacks) {
    char *text = said(say_going_on, steps);

    check(has, strstr(text, has) != NULL && strstr(text, lacks) == NULL);
    free(text);
}

int main(void) {
    for (uint64_t number = ZED_SCRIPT_MALFORMED; number <= ZED_NOT_A_JOURNAL; number++) has_words(number);
    for (uint64_t number = ZED_AT_EOF; number <= ZED_BAD_PATTERN; number++) has_words(number);
    going_on(0, "With a larger -b", "No larger -b");
    going_on(UINT32_MAX - 1, "With a larger -b", "No larger -b");
    going_on(UINT32_MAX, "No larger -b", "With a larger -b");
    return checked();
}
