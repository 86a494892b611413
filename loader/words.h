/* What the numbers of a run and of work with journals mean, in plain words, and where in the script a run's numbers come from. */
#ifndef WORDS_H
#define WORDS_H

#include "files.h"

#include <stdio.h>

/* What happened and whose matter it is. */
void say_number(FILE *out, uint64_t number);

/*
 * For a run that has spent its budget, which is just the steps that it made: what a larger budget would do. The place of the step that it wanted is shown next. That the
 * run then comes to this point again, with the same journal, and goes on from there, is proved (docs/BUDGETS.md).
 */
void say_going_on(FILE *out, uint64_t steps);

/* The script's line that the place is in, with a mark under it. */
void show_place(FILE *out, const char *name, const struct bytes *script, size_t place);

/* The same for a run that stopped. After the script's end it stops in a line that the script's globals would change. */
void show_stop(FILE *out, const char *name, const struct bytes *script, size_t place);

#endif
