/* Comparing what an operation answers, and what it was lent, with what is wanted; header H, one of version 2, and two frames. */
#ifndef COMPARE_H
#define COMPARE_H

#include "bafirolen.h"

#include <stdio.h>
#include <string.h>

#define NUMBERS 64
#define BYTES 256
#define KEPT 0xEE
#define KEPT_NUMBER 0xEEEEEEEEu
#define COUNT(array) (sizeof(array) / sizeof(array)[0])

/* how the archive lays its structs out, which the values below go round through */
typedef char sizes[(sizeof(BafirolenSection) == 32 && sizeof(BafirolenPlace) == 32 && sizeof(BafirolenAuth) == 56
                    && sizeof(BafirolenBody) == 104 && sizeof(BafirolenWritten) == 24 && sizeof(BafirolenNumbers) == 28)
                       ? 1
                       : -1];

/* what a call answers */
union answered {
    BafirolenBody body;
    BafirolenSection section;
    BafirolenPlace place;
    BafirolenAuth auth;
    BafirolenWritten written;
    uint64_t number;
};
typedef char offsets[(offsetof(BafirolenWritten, position) == 8 && offsetof(BafirolenWritten, length) == 16
                      && offsetof(BafirolenAuth, iv) == 24 && offsetof(BafirolenAuth, tag) == 36
                      && offsetof(BafirolenBody, numbers) == 16 && offsetof(BafirolenBody, messageIdStart) == 48
                      && offsetof(BafirolenBody, tail) == 96 && offsetof(BafirolenNumbers, suite) == 8
                      && offsetof(BafirolenNumbers, frameLength) == 20 && offsetof(BafirolenNumbers, form) == 24)
                         ? 1
                         : -1];

static unsigned long cases, differences;

static inline void same(const char *what, uint64_t got, uint64_t want)
{
    cases++;
    if (got != want) {
        differences++;
        fprintf(stderr, "%s: %llu, not %llu\n", what, (unsigned long long)got, (unsigned long long)want);
    }
}

static inline void same_bytes(const char *what, const void *got, const void *want, size_t n)
{
    same(what, (uint64_t)(memcmp(got, want, n) == 0), 1);
}

/* header H */
static const uint8_t H[58] = {0x01, 0x80, 0x01, 0x78, 0x00, 0x01, 0x02, 0x03, 0x04, 0x05, 0x06, 0x07, 0x08, 0x09, 0x0A,
                              0x0B, 0x0C, 0x0D, 0x0E, 0x0F, 0x00, 0x0C, 0x00, 0x01, 0x00, 0x04, 0x6C, 0x61, 0x6E, 0x67,
                              0x00, 0x02, 0x63, 0x79, 0x00, 0x01, 0x00, 0x02, 0x70, 0x31, 0x00, 0x01, 0x61, 0x00, 0x03,
                              0xAA, 0xBB, 0xCC, 0x02, 0x00, 0x00, 0x00, 0x00, 0x0C, 0x00, 0x00, 0x10, 0x00};
static const uint32_t H_pairs[4] = {26, 4, 32, 2};
static const uint32_t H_keys[6] = {38, 2, 42, 1, 45, 3};
static const char H_listing[] = "header\t1\t80\t0178\t02\t4096\t58\nid\t000102030405060708090a0b0c0d0e0f\n"
                                "pair\t6c616e67\t6379\nkey\t7031\t61\taabbcc\n";

/* a header of version 2: two pairs, of which one key begins the other, and two equal keys with an empty part */
static const uint8_t V2[108] = {
    0x02, 0x05, 0x78,
    0x20, 0x21, 0x22, 0x23, 0x24, 0x25, 0x26, 0x27, 0x28, 0x29, 0x2A, 0x2B, 0x2C, 0x2D, 0x2E, 0x2F,
    0x30, 0x31, 0x32, 0x33, 0x34, 0x35, 0x36, 0x37, 0x38, 0x39, 0x3A, 0x3B, 0x3C, 0x3D, 0x3E, 0x3F,
    0x00, 0x10, 0x00, 0x02, 0x00, 0x01, 0x61, 0x00, 0x01, 0x62, 0x00, 0x02, 0x61, 0x62, 0x00, 0x02, 0xC3, 0xA9,
    0x00, 0x02, 0x00, 0x01, 0x70, 0x00, 0x00, 0x00, 0x01, 0xAA, 0x00, 0x01, 0x70, 0x00, 0x00, 0x00, 0x01, 0xAA,
    0x01, 0x00, 0x00, 0x00, 0x00,
    0x40, 0x41, 0x42, 0x43, 0x44, 0x45, 0x46, 0x47, 0x48, 0x49, 0x4A, 0x4B, 0x4C, 0x4D, 0x4E, 0x4F,
    0x50, 0x51, 0x52, 0x53, 0x54, 0x55, 0x56, 0x57, 0x58, 0x59, 0x5A, 0x5B, 0x5C, 0x5D, 0x5E, 0x5F};

/* two frames of 3 bytes, the final one of 2: number, IV, content, tag; mark, number, IV, length, content, tag */
static const uint8_t RUN[77] = {
    0x00, 0x00, 0x00, 0x01, 0xA0, 0xA1, 0xA2, 0xA3, 0xA4, 0xA5, 0xA6, 0xA7, 0xA8, 0xA9, 0xAA, 0xAB, 0x61, 0x62, 0x63,
    0xB0, 0xB1, 0xB2, 0xB3, 0xB4, 0xB5, 0xB6, 0xB7, 0xB8, 0xB9, 0xBA, 0xBB, 0xBC, 0xBD, 0xBE, 0xBF,
    0xFF, 0xFF, 0xFF, 0xFF, 0x00, 0x00, 0x00, 0x02, 0xC0, 0xC1, 0xC2, 0xC3, 0xC4, 0xC5, 0xC6, 0xC7, 0xC8, 0xC9, 0xCA, 0xCB,
    0x00, 0x00, 0x00, 0x02, 0x64, 0x65,
    0xD0, 0xD1, 0xD2, 0xD3, 0xD4, 0xD5, 0xD6, 0xD7, 0xD8, 0xD9, 0xDA, 0xDB, 0xDC, 0xDD, 0xDE, 0xDF};
static const uint32_t RUN_table[12] = {4, 12, 16, 3, 19, 16, 43, 12, 59, 2, 61, 16};

/* what is lent to be changed, filled anew before each call */
static uint32_t pairs[NUMBERS], keys[NUMBERS], fresh_numbers[NUMBERS];
static uint8_t out[BYTES], fresh_bytes[BYTES];

static inline void fresh(void)
{
    size_t i;
    for (i = 0; i < NUMBERS; i++) {
        fresh_numbers[i] = KEPT_NUMBER;
    }
    memset(fresh_bytes, KEPT, sizeof fresh_bytes);
    memcpy(pairs, fresh_numbers, sizeof pairs);
    memcpy(keys, fresh_numbers, sizeof keys);
    memcpy(out, fresh_bytes, sizeof out);
}

/* a table that begins with n numbers, and keeps the others */
static inline void table_is(const char *what, const uint32_t *table, const uint32_t *front, size_t n)
{
    same_bytes(what, table, front, n * sizeof *table);
    same_bytes(what, table + n, fresh_numbers + n, (NUMBERS - n) * sizeof *table);
}

/* an output that begins with n bytes, and keeps the others */
static inline void output_is(const char *what, const uint8_t *front, size_t n)
{
    same_bytes(what, out, front, n);
    same_bytes(what, out + n, fresh_bytes + n, BYTES - n);
}

/* a writer gives no position but 0, unless it reads a message: one that lacks bytes, as a copy may, gives theirs */
static inline void written_at(const char *what, BafirolenWritten w, uint64_t number, uint64_t position, uint64_t length)
{
    same(what, w.number, number);
    same(what, w.position, position);
    same(what, w.length, length);
}

static inline void written_is(const char *what, BafirolenWritten w, uint64_t number, uint64_t length)
{
    written_at(what, w, number, 0, length);
}

static inline void section_is(const char *what, BafirolenSection s, uint64_t number, uint64_t position, uint64_t count,
                              uint64_t tail)
{
    same(what, s.number, number);
    same(what, s.position, position);
    same(what, s.count, count);
    same(what, s.tail, tail);
}

#define BODY_FIELDS 16

static inline void body_is(const char *what, BafirolenBody b, const uint64_t *want)
{
    const BafirolenNumbers n = b.numbers;
    const uint64_t got[BODY_FIELDS] = {b.number, b.position, n.version, n.messageType, n.suite, n.contentType,
                                       n.headerIvLength, n.frameLength, n.form, b.messageIdStart, b.messageIdLen, b.pairCount,
                                       b.keyCount, b.suiteDataStart, b.suiteDataLen, b.tail};
    size_t i;
    for (i = 0; i < BODY_FIELDS; i++) {
        same(what, got[i], want[i]);
    }
}

/* the four bytes behind a body's numbers, and behind a record's tag, are none of their fields, and nothing is said of them: set to
 * 0, so that what was answered can be compared byte by byte */
static inline void clear_behind_numbers(BafirolenBody *b)
{
    const size_t behind = offsetof(BafirolenBody, numbers) + sizeof b->numbers;
    memset((uint8_t *)b + behind, 0, offsetof(BafirolenBody, messageIdStart) - behind);
}

static inline void clear_behind_tag(BafirolenAuth *a)
{
    const size_t behind = offsetof(BafirolenAuth, tag) + sizeof a->tag;
    memset((uint8_t *)a + behind, 0, sizeof *a - behind);
}

/* what a reader marks a header by that it accepts: whether its context section is 00 02 00 00 */
static inline uint32_t form_of(const uint8_t *header)
{
    return memcmp(header + (header[0] == 1 ? 20 : 35), "\0\2\0\0", 4) == 0 ? BAFIROLEN_OLD : BAFIROLEN_TODAY;
}

/* a policy that writes a version, and reads both */
static inline uint32_t policy_for(uint32_t version)
{
    return version == 1 ? BAFIROLEN_FORBID_ENCRYPT_ALLOW_DECRYPT : BAFIROLEN_REQUIRE_ENCRYPT_ALLOW_DECRYPT;
}

static inline size_t append(uint8_t *m, size_t at, const void *bytes, size_t n)
{
    memcpy(m + at, bytes, n);
    return at + n;
}

/* a header of a version with these two sections: its length, which is theirs and 30 in version 1, 72 in version 2 */
static inline size_t header_of(uint8_t *m, uint32_t version, const void *context, size_t context_len, const void *keys,
                               size_t keys_len)
{
    size_t n = append(m, 0, version == 1 ? "\x01\x80\x01\x78" : "\x02\x05\x78", version == 1 ? 4 : 3);
    n = append(m, n, H + 4, version == 1 ? 16 : 32);
    n = append(m, n, context, context_len);
    n = append(m, n, keys, keys_len);
    /* the content type, in version 1 also the reserved bytes and the IV length; the frame length; in version 2 suite data */
    n = append(m, n, H + 48, version == 1 ? 6 : 1);
    n = append(m, n, H + 54, 4);
    return append(m, n, H + 20, version == 1 ? 0 : 32);
}

/* a header of a version and a form without pairs, with this key section: its length */
static inline size_t header_in_form(uint8_t *m, uint32_t version, uint32_t form, const void *keys, size_t keys_len)
{
    const int today = form == BAFIROLEN_TODAY;
    return header_of(m, version, today ? "\0\0" : "\0\2\0\0", today ? 2 : 4, keys, keys_len);
}

/* the same with H's key: its length, which is 46 and 88 today, and 2 more in the old form */
static inline size_t bare_header(uint8_t *m, uint32_t version, uint32_t form)
{
    return header_in_form(m, version, form, H + 34, 14);
}

/* the same header with an empty context in its old form: its length */
static inline size_t in_old_form(const uint8_t *header, size_t n, size_t section, uint8_t *m)
{
    const size_t behind = section + 2 + header[section + 1];
    size_t length = append(m, 0, header, section);
    length = append(m, length, "\0\2\0\0", 4);
    return append(m, length, header + behind, n - behind);
}

/* how many cases were compared; the exit status, which is 1 where none was */
static inline int compared(void)
{
    printf("compared %lu cases\n", cases);
    return differences == 0 && cases > 0 && fflush(stdout) == 0 ? 0 : 1;
}

#endif
