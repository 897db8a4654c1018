/*
 * Drafts put together by hand, and both operations on them: the draft stands at the front of an allocation of just the bytes that
 * are lent, and every byte of that is compared afterwards.
 */
#ifndef DRAFTS_H
#define DRAFTS_H

#include "lending.h"

/* provider ID, provider info and ciphertext of an encrypted data key */
struct key {
    const void *parts[3];
    size_t lengths[3];
};

#define KEY(id, info, ciphertext) {{id, info, ciphertext}, {sizeof(id) - 1, sizeof(info) - 1, sizeof(ciphertext) - 1}}
#define LONGEST 500000

/* an empty context in both forms, and one with a pair */
static const struct {
    const void *bytes;
    size_t length;
} contexts[] = {{"\0\0", 2}, {"\0\2\0\0", 4}, {H + 20, 14}};

/* how many bytes a key takes */
static inline size_t taken_by(const struct key *k)
{
    return 6 + k->lengths[0] + k->lengths[1] + k->lengths[2];
}

/* whether a key has the ID of another */
static inline int has_id(const struct key *k, const struct key *of)
{
    return k->lengths[0] == of->lengths[0] && memcmp(k->parts[0], of->parts[0], k->lengths[0]) == 0;
}

/* a section of these keys: its length */
static inline size_t section_of(uint8_t *m, const struct key *keys, size_t count)
{
    size_t i, part, n = 2;
    m[0] = (uint8_t)(count >> 8);
    m[1] = (uint8_t)count;
    for (i = 0; i < count; i++) {
        for (part = 0; part < 3; part++) {
            m[n] = (uint8_t)(keys[i].lengths[part] >> 8);
            m[n + 1] = (uint8_t)keys[i].lengths[part];
            n = append(m, n + 2, keys[i].parts[part], keys[i].lengths[part]);
        }
    }
    return n;
}

/* a draft of a version, with the nth context and these keys: its length. Its last byte, of the frame length or of the suite data,
 * is not 00, so that it shows where that is not cleared. */
static inline size_t draft_of(uint8_t *m, uint32_t version, size_t context, const struct key *keys, size_t count)
{
    static uint8_t section[LONGEST];
    const size_t n = section_of(section, keys, count);
    const size_t length = header_of(m, version, contexts[context].bytes, contexts[context].length, section, n);
    m[length - 1] = 7;
    return length;
}

/* what stands behind a draft: bytes that are not 00, and of which none is like those about it, so that it shows where they move */
static inline uint8_t behind_at(size_t place)
{
    return (uint8_t)(1 + place % 251);
}

static inline void all_cleared(const char *what, const uint8_t *buffer, size_t from, size_t to)
{
    while (from < to && buffer[from] == 0) {
        from++;
    }
    same(what, from, to);
}

static inline void all_kept(const char *what, const uint8_t *buffer, size_t from, size_t to)
{
    while (from < to && buffer[from] == behind_at(from)) {
        from++;
    }
    same(what, from, to);
}

/* a draft of n bytes in a buffer that has `room` more, which is lent to be changed */
static inline uint8_t *lend_draft(const uint8_t *draft, size_t n, size_t room)
{
    uint8_t *buffer, *whole = malloc(n + room);
    size_t place;
    if (whole == NULL) {
        abort();
    }
    memcpy(whole, draft, n);
    for (place = n; place < n + room; place++) {
        whole[place] = behind_at(place);
    }
    buffer = lend(whole, n + room);
    free(whole);
    return buffer;
}

/* the keys with the ID of this one */
static inline BafirolenWritten drop(uint8_t *buffer, size_t length, const struct key *gone)
{
    return bafirolen_drop_encrypted_data_keys(buffer, length, lend_const(gone->parts[0], gone->lengths[0]), gone->lengths[0]);
}

static inline BafirolenWritten add(uint8_t *buffer, size_t length, const struct key *k)
{
    return bafirolen_add_encrypted_data_key(buffer, length, lend_const(k->parts[0], k->lengths[0]), k->lengths[0],
                                            lend_const(k->parts[1], k->lengths[1]), k->lengths[1],
                                            lend_const(k->parts[2], k->lengths[2]), k->lengths[2]);
}

/* accepted: what is wanted in front; 00 up to the old tail where that lies behind it; and what the buffer had behind both */
static inline void mended(const char *what, BafirolenWritten w, const uint8_t *buffer, size_t n, size_t room,
                          const uint8_t *wanted, size_t length)
{
    const size_t behind = length > n ? length : n;
    written_is(what, w, BAFIROLEN_ACCEPTED, length);
    same_bytes(what, buffer, wanted, length);
    all_cleared(what, buffer, length, behind);
    all_kept(what, buffer, behind, n + room);
}

/* the ID of a key is dropped from a draft of n bytes, and what is wanted is left */
static inline void drops(const char *what, const uint8_t *draft, size_t n, size_t room, const struct key *gone,
                         const uint8_t *wanted, size_t length)
{
    uint8_t *buffer = lend_draft(draft, n, room);
    mended(what, drop(buffer, n + room, gone), buffer, n, room, wanted, length);
    let_go();
}

static inline void adds(const char *what, const uint8_t *draft, size_t n, size_t room, const struct key *k,
                        const uint8_t *wanted, size_t length)
{
    uint8_t *buffer = lend_draft(draft, n, room);
    mended(what, add(buffer, n + room, k), buffer, n, room, wanted, length);
    let_go();
}

/* a refusal, and every byte is as it was */
static inline void kept(const char *what, BafirolenWritten w, const uint8_t *buffer, const uint8_t *draft, size_t n, size_t room,
                        uint64_t number, uint64_t position)
{
    written_at(what, w, number, position, 0);
    same_bytes(what, buffer, draft, n);
    all_kept(what, buffer, n, n + room);
}

static inline void drop_refused(const char *what, const uint8_t *draft, size_t n, size_t room, const struct key *gone,
                                uint64_t number, uint64_t position)
{
    uint8_t *buffer = lend_draft(draft, n, room);
    kept(what, drop(buffer, n + room, gone), buffer, draft, n, room, number, position);
    let_go();
}

static inline void add_refused(const char *what, const uint8_t *draft, size_t n, size_t room, const struct key *k,
                               uint64_t number, uint64_t position)
{
    uint8_t *buffer = lend_draft(draft, n, room);
    kept(what, add(buffer, n + room, k), buffer, draft, n, room, number, position);
    let_go();
}

/* by a buffer of exactly these bytes, and by one that goes on behind them: the same is answered, and left */
static inline void mends_alike(const uint8_t *m, size_t n, const struct key *k)
{
    uint8_t *dropped = lend(m, n), *added = lend(m, n);
    BafirolenWritten exact, roomy;
    fresh();
    memcpy(out, m, n);
    exact = drop(dropped, n, k);
    roomy = bafirolen_drop_encrypted_data_keys(out, n, k->parts[0], k->lengths[0]);
    same_bytes("keys dropped", &exact, &roomy, sizeof exact);
    same_bytes("keys dropped", dropped, out, n);
    memcpy(out, m, n);
    exact = add(added, n, k);
    roomy = bafirolen_add_encrypted_data_key(out, n, k->parts[0], k->lengths[0], k->parts[1], k->lengths[1], k->parts[2],
                                             k->lengths[2]);
    same_bytes("a key added", &exact, &roomy, sizeof exact);
    same_bytes("a key added", added, out, n);
    same_bytes("behind the draft", out + n, fresh_bytes + n, BYTES - n);
    let_go();
}

#endif
