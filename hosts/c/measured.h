/*
 * What a length foretells of a writer, by exact allocations. Who includes this has, in front of it, `struct request`, which is what the
 * writer is lent beside the output, with the text among it; `lend_all`, which lends it; `measured`, which asks for the length; and
 * `written`, which writes.
 */
#ifndef MEASURED_H
#define MEASURED_H

#include "lending.h"

static inline size_t kept_from(const uint8_t *o, size_t front, size_t room)
{
    while (room > front && o[room - 1] == KEPT) {
        room--;
    }
    return room;
}

/* into exactly so many bytes: the answer, and the image in front of what keeps */
static inline void written_into_at(const char *what, struct request r, size_t room, uint64_t number, uint64_t position,
                                   const uint8_t *image, size_t length)
{
    const size_t front = number == BAFIROLEN_ACCEPTED ? length : 0;
    uint8_t *o = malloc(room);
    if (o == NULL) {
        abort();
    }
    memset(o, KEPT, room);
    written_at(what, written(r, o, room), number, position, front);
    same_bytes(what, o, image, front);
    same(what, kept_from(o, front, room), front);
    free(o);
}

static inline void written_into(const char *what, struct request r, size_t room, uint64_t number, const uint8_t *image,
                                size_t length)
{
    written_into_at(what, r, room, number, 0, image, length);
}

/* what is lent takes just so many bytes */
static inline void fits(const char *what, struct request r, const uint8_t *image, size_t length)
{
    written_is(what, measured(r), BAFIROLEN_ACCEPTED, length);
    written_into(what, r, length, BAFIROLEN_ACCEPTED, image, length);
    written_into(what, r, length + 1, BAFIROLEN_ACCEPTED, image, length);
    written_into(what, r, length - 1, BAFIROLEN_REFUSED_OUTPUT_TOO_SHORT, image, length);
}

/* the length is refused, and the writer answers the same without room and with plenty */
static inline void refused_at(const char *what, struct request r, uint64_t number, uint64_t position, size_t plenty)
{
    r = lend_all(r);
    written_at(what, measured(r), number, position, 0);
    written_into_at(what, r, 0, number, position, r.text, 0);
    written_into_at(what, r, plenty, number, position, r.text, 0);
    let_go();
}

static inline void refused_by(const char *what, struct request r, uint64_t number)
{
    refused_at(what, r, number, 0, 70000);
}

#endif
