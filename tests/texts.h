/* Text that grows. */
#ifndef TEXTS_H
#define TEXTS_H

#include <stdlib.h>
#include <string.h>

/* There is always a 0 after it. */
typedef struct text {
    char *at;
    size_t length, room;
} text;

static void add(text *t, const char *bytes, size_t n) {
    if (t->length + n >= t->room) {
        t->room = 2 * (t->length + n) + 64;
        t->at = realloc(t->at, t->room);
        if (t->at == NULL) exit(2);
    }
    memcpy(t->at + t->length, bytes, n);
    t->length += n;
    t->at[t->length] = 0;
}

static void say(text *t, const char *words) {
    add(t, words, strlen(words));
}

#endif
