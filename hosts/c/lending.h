/* Parts that are lent as allocations of their own, so that a memory checker sees a read or a store beyond one. */
#ifndef LENDING_H
#define LENDING_H

#include "compare.h"

#include <stdlib.h>

/* allocations of exactly the bytes that are lent; of what is lent to be read, where it was copied from */
static struct {
    void *copy;
    const void *read_only;
    size_t n;
} lent[8];
static size_t lent_count;

/* to be changed */
static inline void *lend(const void *bytes, size_t n)
{
    void *copy = malloc(n);
    if (copy == NULL || lent_count == COUNT(lent)) {
        abort();
    }
    memcpy(copy, bytes, n);
    lent[lent_count].copy = copy;
    lent[lent_count].read_only = NULL;
    lent[lent_count++].n = n;
    return copy;
}

/* to be read: the bytes stay as they are until let_go compares them */
static inline const void *lend_const(const void *bytes, size_t n)
{
    const void *copy = lend(bytes, n);
    lent[lent_count - 1].read_only = bytes;
    return copy;
}

/* what was lent to be read is the same; all is freed */
static inline void let_go(void)
{
    while (lent_count > 0) {
        lent_count--;
        if (lent[lent_count].read_only != NULL) {
            same_bytes("what is lent to be read", lent[lent_count].copy, lent[lent_count].read_only, lent[lent_count].n);
        }
        free(lent[lent_count].copy);
    }
}

/* an output of `room` bytes holds these n, or none where they have no room, and keeps the others; it is then filled anew */
static inline void holds(const char *what, BafirolenWritten w, uint8_t *o, size_t room, const void *bytes, size_t n)
{
    const size_t front = room < n ? 0 : n;
    written_is(what, w, room < n ? BAFIROLEN_REFUSED_OUTPUT_TOO_SHORT : 0, front);
    same_bytes(what, o, bytes, front);
    same_bytes(what, o + front, fresh_bytes + front, room - front);
    memset(o, KEPT, room);
}

#endif
