#define _XOPEN_SOURCE 700
#include "files.h"

#include <errno.h>
#include <fcntl.h>
#include <libgen.h>
#include <stdio.h>
#include <stdlib.h>
#include <string.h>
#include <sys/stat.h>
#include <unistd.h>

int make_bytes(struct bytes *b, size_t length)
{
    b->at = malloc(length > 0 ? length : 1);
    b->length = length;
    return b->at != NULL ? 0 : -1;
}

void free_bytes(struct bytes *b)
{
    free(b->at);
    b->at = NULL;
}

size_t count_bytes(const struct bytes *b, uint8_t which)
{
    size_t n = 0;

    for (size_t i = 0; i < b->length; i++)
        n += b->at[i] == which;
    return n;
}

/* Bytes from an open file until there are none, or `b` is full. */
static int fill(int fd, struct bytes *b)
{
    size_t n = 0;

    while (n < b->length) {
        ssize_t got = read(fd, b->at + n, b->length - n);
        if (got < 0 && errno == EINTR)
            continue;
        if (got < 0)
            return -1;
        if (got == 0)
            break;
        n += (size_t)got;
    }
    b->length = n;
    return 0;
}

int read_file(const char *path, size_t most, struct bytes *b)
{
    int fd = open(path, O_RDONLY), result, error;

    if (fd < 0)
        return -1;
    result = make_bytes(b, most) < 0 ? -1 : fill(fd, b);
    error = errno;
    close(fd);
    errno = error;
    return result;
}

/* The folder that a path's file is in; to be freed. */
static char *folder_of(const char *path)
{
    char *copy = strdup(path), *folder = copy != NULL ? strdup(dirname(copy)) : NULL;

    free(copy);
    return folder;
}

static const char *name_of(const char *path)
{
    const char *slash = strrchr(path, '/');

    return slash != NULL ? slash + 1 : path;
}

static int same_inode(const char *a, const char *b)
{
    struct stat x, y;

    return stat(a, &x) == 0 && stat(b, &y) == 0 && x.st_dev == y.st_dev && x.st_ino == y.st_ino;
}

int same_file(const char *a, const char *b)
{
    char *x, *y;
    int same;

    if (strcmp(a, b) == 0 || same_inode(a, b))
        return 1;
    x = folder_of(a);
    y = folder_of(b);
    same = x != NULL && y != NULL && same_inode(x, y) && strcmp(name_of(a), name_of(b)) == 0;
    free(x);
    free(y);
    return same;
}

char *with_ending(const char *text, const char *ending)
{
    size_t n = strlen(text), m = strlen(ending);
    char *both = malloc(n + m + 1);

    if (both != NULL) {
        memcpy(both, text, n);
        memcpy(both + n, ending, m + 1);
    }
    return both;
}

static int write_all(int fd, const struct bytes *b)
{
    size_t n = 0;

    while (n < b->length) {
        ssize_t put = write(fd, b->at + n, b->length - n);
        if (put < 0 && errno == EINTR)
            continue;
        if (put <= 0)
            return -1;
        n += (size_t)put;
    }
    return 0;
}

/* The bytes into the open new file, synced, with the mode of a file that is there. */
static int write_new(int fd, const struct bytes *b, const char *path, const char *like)
{
    struct stat st;
    int known = stat(path, &st) == 0 || stat(like, &st) == 0;

    if (known && fchmod(fd, st.st_mode & 0777) < 0)
        return -1;
    return write_all(fd, b) < 0 || fsync(fd) < 0 ? -1 : 0;
}

static int sync_folder(const char *path)
{
    char *folder = folder_of(path);
    int fd = folder != NULL ? open(folder, O_RDONLY | O_DIRECTORY) : -1;
    int result = fd >= 0 ? fsync(fd) : -1, error = errno;

    if (fd >= 0)
        close(fd);
    free(folder);
    errno = error;
    return result;
}

/* The new file beside `path` is made, filled and renamed; what is left of it is taken away where that fails. */
static enum filed replace_at(const char *path, const struct bytes *b, const char *like, int *error)
{
    char *name = with_ending(path, ".new-XXXXXX");
    int fd = name != NULL ? mkstemp(name) : -1, made = fd >= 0, good;

    good = made && write_new(fd, b, path, like) == 0;
    *error = errno;
    if (made && close(fd) < 0 && good) {
        *error = errno;
        good = 0;
    }
    if (good && rename(name, path) < 0) {
        *error = errno;
        good = 0;
    }
    if (made && !good)
        unlink(name);
    free(name);
    if (!good)
        return NOT_FILED;
    if (sync_folder(path) < 0) {
        *error = errno;
        return FILED_NOT_SYNCED;
    }
    return FILED;
}

enum filed replace_file(const char *path, const struct bytes *b, const char *like, int *error)
{
    /* a link stays: the file that it leads to is replaced */
    char *real = realpath(path, NULL);
    enum filed result = replace_at(real != NULL ? real : path, b, like, error);

    free(real);
    return result;
}
