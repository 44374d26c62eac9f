/* The limits, in bytes, that the libraries of this folder set to a program's calls. */
#ifndef LIMIT_H
#define LIMIT_H

#include <stdint.h>
#include <stdlib.h>

/* The limit that a variable holds. One that isn't set is none. */
static size_t limit(const char *variable)
{
    const char *number = getenv(variable);

    return number == NULL ? SIZE_MAX : (size_t)strtoull(number, NULL, 10);
}

static size_t lower(size_t a, size_t b)
{
    return a < b ? a : b;
}

#endif
