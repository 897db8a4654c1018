/* How an example ends: what it writes to standard error, and the status for main to return. */
#ifndef EXAMPLE_H
#define EXAMPLE_H

#include "bafirolen.h"

#include <errno.h>
#include <inttypes.h>
#include <stdio.h>
#include <string.h>

/* The archive was made for the declarations that this was compiled with: 0, or 1 and the two numbers are written. */
static inline int other_version(const char *program)
{
    const uint32_t linked = bafirolen_version();
    if (linked == BAFIROLEN_VERSION) {
        return 0;
    }
    fprintf(stderr, "%s: bafirolen.h has version %d, the archive %" PRIu32 "\n", program, BAFIROLEN_VERSION, linked);
    return 1;
}

/* Wrong arguments: 2. */
static inline int usage(const char *line)
{
    fprintf(stderr, "usage: %s\n", line);
    return 2;
}

/* A refusal: 1. A shortage says how many bytes are wanted, so that a caller who has them can come again. */
static inline int refused(const char *program, uint64_t number, uint64_t position)
{
    if (number == BAFIROLEN_REFUSED_SHORTAGE) {
        fprintf(stderr, "%s: refusal %" PRIu64 ": the message does not reach position %" PRIu64 "\n", program, number, position);
    } else {
        fprintf(stderr, "%s: refusal %" PRIu64 ": %s\n", program, number, bafirolen_refusal_text(number));
    }
    return 1;
}

/* A file that can't be read or written, where errno says why: 1. */
static inline int file_failed(const char *program, const char *path)
{
    fprintf(stderr, "%s: %s: %s\n", program, path, strerror(errno));
    return 1;
}

/* Writes bytes to a file, which then has nothing else: 1, or 0 where errno says why. */
static inline int filed(const char *path, const uint8_t *bytes, size_t length)
{
    FILE *f = fopen(path, "wb");
    int whole;
    if (f == NULL) {
        return 0;
    }
    whole = fwrite(bytes, 1, length, f) == length;
    return fclose(f) == 0 && whole;
}

/* Everything printed has left: 0, or 1 where something has not. What a buffer holds fails no sooner than when it is closed. */
static inline int printed(const char *program)
{
    const int failed = ferror(stdout);
    if (fclose(stdout) == 0 && !failed) {
        return 0;
    }
    fprintf(stderr, "%s: standard output: %s\n", program, failed ? "not written" : strerror(errno));
    return 1;
}

#endif
