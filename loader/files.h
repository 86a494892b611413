/* Bytes in memory and in files. */
#ifndef FILES_H
#define FILES_H

#include <stddef.h>
#include <stdint.h>

struct bytes {
    uint8_t *at;
    size_t length;
};

/* 0, or -1 where there is no memory. Even no bytes have a place, as the editor's functions take no null pointer. */
int make_bytes(struct bytes *b, size_t length);
void free_bytes(struct bytes *b);
size_t count_bytes(const struct bytes *b, uint8_t which);

/* The file's bytes, at most so many; -1 and errno where it cannot be read. */
int read_file(const char *path, size_t most, struct bytes *b);

/* Whether two paths lead, or would lead, to one file. */
int same_file(const char *a, const char *b);

/* The text with an ending, to be freed; NULL where there is no memory. */
char *with_ending(const char *text, const char *ending);

enum filed { FILED, FILED_NOT_SYNCED, NOT_FILED };

/*
 * The file gets the bytes by way of a new file beside it that is synced and renamed: it has the old bytes or all of the new ones.
 * Its mode stays; a file that was not there gets the mode of `like`. `error` is set where the result is not FILED.
 */
enum filed replace_file(const char *path, const struct bytes *b, const char *like, int *error);

#endif
