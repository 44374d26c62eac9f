/* What the C programs of this folder are made with: an expectation, and blocks of just the right size. */
#ifndef BLOCKS_H
#define BLOCKS_H

#include <stdint.h>
#include <stdio.h>
#include <stdlib.h>
#include <string.h>

/* Prints the line of an expectation that fails and exits with 1. */
#define EXPECT(what)                                        \
    do {                                                    \
        if (!(what)) {                                      \
            printf("line %d: %s\n", __LINE__, #what);       \
            exit(1);                                        \
        }                                                   \
    } while (0)

/* A copy of some bytes in a block of that size. */
static uint8_t *block_of(const uint8_t *bytes, size_t size)
{
    uint8_t *block = (uint8_t *)malloc(size);

    EXPECT(block != NULL || size == 0);
    if (size > 0)
        memcpy(block, bytes, size);
    /* No pointer may be null, not even to an empty buffer. */
    return block != NULL ? block : (uint8_t *)malloc(1);
}

#endif
