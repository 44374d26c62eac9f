/*
 * A reader that is slow, or a disk that fills. Loaded in front of the C library (LD_PRELOAD), it changes a program's
 * writes to standard output: none takes more than SHORT_WRITE bytes, and behind SHORT_WRITE_BEHIND bytes in all every
 * one fails with ENOSPC. A limit that isn't set is none.
 */
#define _GNU_SOURCE
#include "limit.h"
#include <errno.h>
#include <sys/syscall.h>
#include <unistd.h>

ssize_t write(int fd, const void *bytes, size_t size)
{
    static size_t taken = 0;
    size_t left = limit("SHORT_WRITE_BEHIND") - taken;
    ssize_t more;

    if (fd != STDOUT_FILENO)
        return syscall(SYS_write, fd, bytes, size);
    if (left == 0) {
        errno = ENOSPC;
        return -1;
    }
    more = syscall(SYS_write, fd, bytes, lower(size, lower(left, limit("SHORT_WRITE"))));
    if (more > 0)
        taken += (size_t)more;
    return more;
}
