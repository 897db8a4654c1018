/* A message from a file, and parts of messages, for the examples. */
#ifndef MESSAGE_H
#define MESSAGE_H

#include "example.h"

#include <errno.h>
#include <stdint.h>
#include <stdio.h>
#include <stdlib.h>

struct part {
    const uint8_t *bytes;
    size_t length;
};

/* n numbers of two tables, start and length by turns, lead to the same bytes of two messages or texts */
static inline int same_parts(const uint8_t *m, const uint32_t *read, const uint8_t *text, const uint32_t *lent, size_t n)
{
    size_t i;
    for (i = 0; i < n; i += 2) {
        if (read[i + 1] != lent[i + 1] || memcmp(m + read[i], text + lent[i], lent[i + 1]) != 0) {
            return 0;
        }
    }
    return 1;
}

/* The bytes of a file, to be freed, in *length; or null, and errno says why. */
static inline uint8_t *message_of(const char *path, size_t *length)
{
    uint8_t *bytes = NULL;
    long size = -1;
    int why;
    FILE *f = fopen(path, "rb");
    if (f == NULL) {
        return NULL;
    }
    if (fseek(f, 0, SEEK_END) == 0 && (size = ftell(f)) >= 0 && fseek(f, 0, SEEK_SET) == 0) {
        *length = (size_t)size;
        /* one byte where there is none: null says that the file was not read */
        bytes = malloc(*length == 0 ? 1 : *length);
    }
    /* a file that has shrunk since sets no errno */
    errno = bytes == NULL ? errno : EIO;
    if (bytes != NULL && fread(bytes, 1, *length, f) != *length) {
        free(bytes);
        bytes = NULL;
    }
    why = errno;
    fclose(f);
    errno = why;
    return bytes;
}

/* Does `use` with the bytes of a file and a second argument, if one is wanted: the status for main to return. */
static inline int with_message(const char *program, const char *path, int (*use)(const uint8_t *, size_t, const char *),
                               const char *argument)
{
    size_t length;
    int status;
    uint8_t *message = message_of(path, &length);
    if (message == NULL) {
        return file_failed(program, path);
    }
    status = use(message, length, argument);
    free(message);
    return status;
}

#endif
