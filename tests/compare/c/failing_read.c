/*
 * A disk that is slow, or breaks while a file is read. Loaded in front of the C library (LD_PRELOAD), it changes a
 * program's reads of the file that FAILING_READ names: none gives more than FAILING_READ_PIECE bytes, and behind
 * FAILING_READ_BEHIND bytes in all every one fails with EIO. A limit that isn't set is none. Other files are read as
 * ever.
 */
#define _GNU_SOURCE
#include "limit.h"
#include <errno.h>
#include <stdio.h>
#include <stdlib.h>
#include <string.h>
#include <sys/syscall.h>
#include <unistd.h>

/* Whether the open file has the name, whatever folder it is in. */
static int is_named(int fd)
{
    const char *name = getenv("FAILING_READ");
    char link[64];
    char path[4096];
    const char *last;
    ssize_t size;

    snprintf(link, sizeof link, "/proc/self/fd/%d", fd);
    size = readlink(link, path, sizeof path - 1);
    if (name == NULL || size < 0)
        return 0;
    path[size] = '\0';
    last = strrchr(path, '/');
    return last != NULL && strcmp(last + 1, name) == 0;
}

ssize_t read(int fd, void *bytes, size_t room)
{
    static size_t given = 0;
    size_t left;
    ssize_t size;

    if (!is_named(fd))
        return syscall(SYS_read, fd, bytes, room);
    left = limit("FAILING_READ_BEHIND") - given;
    if (left == 0) {
        errno = EIO;
        return -1;
    }
    size = syscall(SYS_read, fd, bytes, lower(room, lower(left, limit("FAILING_READ_PIECE"))));
    if (size > 0)
        given += (size_t)size;
    return size;
}
