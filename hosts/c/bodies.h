/* Header bodies of many pairs and keys, well formed or with one fault, and the tables of their places. */
#ifndef BODIES_H
#define BODIES_H

#include "bafirolen.h"

#include <string.h>

enum order { ASCENDING, DESCENDING, SHUFFLED };
/* the last pair has the key of the first, or a value that is not UTF-8; the section claims 65,535 pairs */
enum fault { NO_FAULT, KEY_AGAIN, BAD_VALUE, MANY_CLAIMED };

struct shape {
    uint32_t version, pairs, keys;
    enum order order;
    enum fault fault;
    enum BafirolenForm form; /* old only where there is no pair */
};

#define MOST_PAIRS 10900
#define MOST_KEYS 65535

/* the body, and where its parts stand */
static struct body {
    uint8_t bytes[65536 + 6 * MOST_KEYS + 128];
    size_t length, context, keys;
    uint32_t last_key; /* the place of the last pair's key, of two bytes */
    uint32_t pair_table[4 * MOST_PAIRS], key_table[6 * MOST_KEYS];
    uint32_t required[2 * MOST_PAIRS]; /* the places of the pairs' keys alone */
} body;

static inline void put(const void *bytes, size_t n)
{
    memcpy(body.bytes + body.length, bytes, n);
    body.length += n;
}

static inline void put_number(uint32_t number, size_t bytes)
{
    while (bytes-- > 0) {
        body.bytes[body.length++] = (uint8_t)(number >> 8 * bytes);
    }
}

/* an entry, and its place in the table */
static inline void put_entry(const uint8_t *bytes, uint32_t n, uint32_t *place)
{
    put_number(n, 2);
    place[0] = (uint32_t)body.length;
    place[1] = n;
    put(bytes, n);
}

/* keys of two bytes, all of them different; values of one, or of none where the pairs are too many for that */
static inline void put_context(struct shape s)
{
    static const uint8_t value[] = {'v', 0xFF};
    uint32_t i, k;
    body.context = body.length;
    if (s.form == BAFIROLEN_OLD) {
        put("\0\2\0\0", 4);
        return;
    }
    put_number(0, 2);
    if (s.pairs == 0) {
        return;
    }
    put_number(s.fault == MANY_CLAIMED ? 65535 : s.pairs, 2);
    for (i = 0; i < s.pairs; i++) {
        uint8_t key[2];
        k = s.order == ASCENDING ? i : s.order == DESCENDING ? s.pairs - 1 - i : i * 7919 % s.pairs;
        if (s.fault == KEY_AGAIN && i > 0 && i + 1 == s.pairs) {
            memcpy(key, body.bytes + body.pair_table[0], 2);
        } else {
            key[0] = (uint8_t)(k / 128);
            key[1] = (uint8_t)(k % 128);
        }
        put_entry(key, 2, body.pair_table + 4 * i);
        memcpy(body.required + 2 * i, body.pair_table + 4 * i, 2 * sizeof *body.required);
        put_entry(value + (s.fault == BAD_VALUE && i + 1 == s.pairs), s.pairs < 9000, body.pair_table + 4 * i + 2);
    }
    body.last_key = body.pair_table[4 * (s.pairs - 1)];
    k = (uint32_t)(body.length - body.context - 2);
    body.bytes[body.context] = (uint8_t)(k >> 8);
    body.bytes[body.context + 1] = (uint8_t)k;
}

/* parts of one byte, or of none where the keys are many; the last key alone has another provider ID than the first */
static inline void put_keys(struct shape s)
{
    uint32_t i;
    body.keys = body.length;
    put_number(s.keys, 2);
    for (i = 0; i < 3 * s.keys; i++) {
        const int last = i + 3 == 3 * s.keys;
        put_entry((const uint8_t *)(last ? "q" : "p"), last || s.keys < 1000, body.key_table + 2 * i);
    }
}

static inline void build(struct shape s)
{
    static const uint8_t id_or_data[32];
    memset(&body, 0, offsetof(struct body, pair_table));
    put(s.version == 1 ? "\x01\x80\x01\x78" : "\x02\x05\x78", s.version == 1 ? 4 : 3);
    put(id_or_data, s.version == 1 ? 16 : 32);
    put_context(s);
    put_keys(s);
    put_number(2, 1);
    if (s.version == 1) {
        put_number(0, 4);
        put_number(12, 1);
    }
    put_number(4096, 4);
    put(id_or_data, s.version == 1 ? 0 : 32);
}

/* the numbers of such a body */
static inline BafirolenNumbers numbers_of(struct shape s)
{
    BafirolenNumbers numbers = s.version == 1 ? bafirolen_v1_numbers(0x0178, BAFIROLEN_FRAMED, 4096)
                                              : bafirolen_v2_numbers(0x0578, BAFIROLEN_FRAMED, 4096);
    numbers.form = s.form;
    return numbers;
}

#endif
