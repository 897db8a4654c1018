/*
 * Drafts of version 1 and what they are reissued as, both put together by hand, and the operation and its length on them: each part
 * is an allocation of exactly the bytes that are lent.
 */
#ifndef REISSUES_H
#define REISSUES_H

#include "lending.h"

/* what is lent beside the output; the message is the text */
struct request {
    const uint8_t *text, *id, *data;
    size_t text_len, id_len, data_len;
    uint64_t start;
    uint32_t suite;
};

static inline struct request lend_all(struct request r)
{
    r.text = lend_const(r.text, r.text_len);
    r.id = lend_const(r.id, r.id_len);
    r.data = lend_const(r.data, r.data_len);
    return r;
}

static inline BafirolenWritten measured(struct request r)
{
    return bafirolen_reissued_header_body_len(r.text, r.text_len, r.start, r.suite, r.id, r.id_len, r.data, r.data_len);
}

static inline BafirolenWritten written(struct request r, uint8_t *o, size_t room)
{
    return bafirolen_reissue_header_body(r.text, r.text_len, r.start, r.suite, r.id, r.id_len, r.data, r.data_len, o, room);
}

#include "measured.h"

/* the draft at a start of a message, with nothing wrong in what is added: V2's ID and suite data, whose bytes are all different */
static inline struct request sound(const uint8_t *m, size_t n, uint64_t start)
{
    const struct request r = {m, V2 + 3, V2 + 76, n, 32, 32, start, 0x0578};
    return r;
}

/* the same, with everything to refuse in it */
static inline struct request faulty(const uint8_t *m, size_t n, uint64_t start)
{
    const struct request r = {m, V2 + 3, V2 + 76, n, 16, 0, start, 0x0579};
    return r;
}

/* what a draft hands on: its sections, and content type and frame length as they are stored */
struct handed_on {
    const void *context, *keys;
    size_t context_len, keys_len;
    const void *type, *frame_length;
};

static inline int in_the_old_form(const struct handed_on *h)
{
    return h->context_len == 4 && memcmp(h->context, "\0\2\0\0", 4) == 0;
}

/* a draft with H's front: its length */
static inline size_t first_of(uint8_t *m, const struct handed_on *h)
{
    size_t n = append(m, 0, H, 20);
    n = append(m, n, h->context, h->context_len);
    n = append(m, n, h->keys, h->keys_len);
    n = append(m, n, h->type, 1);
    n = append(m, n, "\0\0\0\0\x0C", 5);
    return append(m, n, h->frame_length, 4);
}

/* what it is reissued as: its length */
static inline size_t second_of(uint8_t *m, const struct handed_on *h, const struct request *r)
{
    const uint8_t front[3] = {2, (uint8_t)(r->suite >> 8), (uint8_t)r->suite};
    const int old = in_the_old_form(h);
    size_t n = append(m, 0, front, 3);
    n = append(m, n, r->id, 32);
    n = append(m, n, old ? "\0\0" : h->context, old ? 2 : h->context_len);
    n = append(m, n, h->keys, h->keys_len);
    n = append(m, n, h->type, 1);
    n = append(m, n, h->frame_length, 4);
    return append(m, n, r->data, 32);
}

/* by parts of exactly their bytes and an output of just the length told, and by parts that more stands behind: the same is
 * answered, and left */
static inline void reissues_alike(struct request r)
{
    const struct request exact = lend_all(r);
    const BafirolenWritten told = measured(exact), roomy_told = measured(r);
    BafirolenWritten w;
    uint8_t *o;
    same_bytes("the length told", &told, &roomy_told, sizeof told);
    fresh();
    o = lend(fresh_bytes, told.length);
    w = written(exact, o, told.length);
    same_bytes("a draft reissued", &w, &told, sizeof w);
    w = written(r, out, BYTES);
    same_bytes("a draft reissued", &w, &told, sizeof w);
    output_is("its bytes", o, told.length);
    let_go();
}

/* every cut of a draft, and some bytes behind it, from starts about its own, with nothing wrong in what is added and with
 * everything */
static inline void reissue_cuts(const uint8_t *header, size_t n)
{
    uint8_t m[BYTES];
    size_t cut, start;
    memset(m, KEPT, sizeof m);
    memcpy(m + 1, header, n);
    for (cut = 0; cut <= n + 20; cut++) {
        for (start = 0; start <= 2; start++) {
            reissues_alike(sound(m, cut, start));
            reissues_alike(faulty(m, cut, start));
        }
    }
}

#endif
