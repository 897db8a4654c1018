/*
 * A host in C: drafts of version 1 turned into version 2. What is written is compared, byte by byte, with a body that was put
 * together by hand, in outputs of just its length, of a byte more and of a byte less; and what is read of it is what the draft
 * handed on, and what was added. Each part is an allocation of exactly the bytes that are lent. check_reissue_refused.c has what is
 * refused. Writes `compared N cases`; a difference is written to standard error, and the exit status is 1.
 *
 *     tools/archives
 *     gcc -std=c99 -O2 -Wall -Wextra -Iinclude hosts/c/check_reissue.c target/staticlib/libbafirolen_c.a -o target/check_reissue
 *     valgrind --error-exitcode=1 target/check_reissue
 */
#include "bodies.h"
#include "hollow.h"
#include "reissues.h"

/* H with 20 .. 3F as its ID and 40 .. 5F as suite data, and a draft without pairs, in either form, likewise */
static const uint8_t H_reissued[100] = {
    0x02, 0x05, 0x78,
    0x20, 0x21, 0x22, 0x23, 0x24, 0x25, 0x26, 0x27, 0x28, 0x29, 0x2A, 0x2B, 0x2C, 0x2D, 0x2E, 0x2F,
    0x30, 0x31, 0x32, 0x33, 0x34, 0x35, 0x36, 0x37, 0x38, 0x39, 0x3A, 0x3B, 0x3C, 0x3D, 0x3E, 0x3F,
    0x00, 0x0C, 0x00, 0x01, 0x00, 0x04, 0x6C, 0x61, 0x6E, 0x67, 0x00, 0x02, 0x63, 0x79,
    0x00, 0x01, 0x00, 0x02, 0x70, 0x31, 0x00, 0x01, 0x61, 0x00, 0x03, 0xAA, 0xBB, 0xCC,
    0x02, 0x00, 0x00, 0x10, 0x00,
    0x40, 0x41, 0x42, 0x43, 0x44, 0x45, 0x46, 0x47, 0x48, 0x49, 0x4A, 0x4B, 0x4C, 0x4D, 0x4E, 0x4F,
    0x50, 0x51, 0x52, 0x53, 0x54, 0x55, 0x56, 0x57, 0x58, 0x59, 0x5A, 0x5B, 0x5C, 0x5D, 0x5E, 0x5F};
static const uint8_t bare_reissued[82] = {
    0x02, 0x05, 0x78,
    0x20, 0x21, 0x22, 0x23, 0x24, 0x25, 0x26, 0x27, 0x28, 0x29, 0x2A, 0x2B, 0x2C, 0x2D, 0x2E, 0x2F,
    0x30, 0x31, 0x32, 0x33, 0x34, 0x35, 0x36, 0x37, 0x38, 0x39, 0x3A, 0x3B, 0x3C, 0x3D, 0x3E, 0x3F,
    0x00, 0x00, 0x00, 0x01, 0x00, 0x00, 0x00, 0x00, 0x00, 0x00,
    0x02, 0x00, 0x00, 0x10, 0x00,
    0x40, 0x41, 0x42, 0x43, 0x44, 0x45, 0x46, 0x47, 0x48, 0x49, 0x4A, 0x4B, 0x4C, 0x4D, 0x4E, 0x4F,
    0x50, 0x51, 0x52, 0x53, 0x54, 0x55, 0x56, 0x57, 0x58, 0x59, 0x5A, 0x5B, 0x5C, 0x5D, 0x5E, 0x5F};

/* a request with parts lent exactly becomes just that */
static void becomes(const char *what, struct request r, const uint8_t *image, size_t length)
{
    r = lend_all(r);
    fits(what, r, image, length);
    let_go();
}

/* the same, and into every room up to a few bytes more than it takes */
static void becomes_in_every_room(const char *what, struct request r, const uint8_t *image, size_t length)
{
    size_t room;
    becomes(what, r, image, length);
    for (room = 0; room <= length + 3; room++) {
        written_into(what, r, room, room < length ? BAFIROLEN_REFUSED_OUTPUT_TOO_SHORT : BAFIROLEN_ACCEPTED, image, length);
    }
}

static void in_full(void)
{
    becomes_in_every_room("H", sound(H, sizeof H, 0), H_reissued, sizeof H_reissued);
    becomes_in_every_room("a bare draft", sound(BARE, sizeof BARE, 0), bare_reissued, sizeof bare_reissued);
    becomes_in_every_room("an old draft", sound(OLD, sizeof OLD, 0), bare_reissued, sizeof bare_reissued);
}

/* what is read of H reissued, by every reader that takes version 2: places are 15 bytes farther, as the ID ends */
static void read_of_h(void)
{
    static const uint64_t want[BODY_FIELDS] = {0, 0, 2, 0, 0x0578, 2, 0, 4096, BAFIROLEN_TODAY, 3, 32, 1, 1, 68, 32, 100};
    static const uint32_t want_pairs[4] = {41, 4, 47, 2}, want_keys[6] = {53, 2, 57, 1, 60, 3};
    static const uint32_t which[] = {BAFIROLEN_EITHER, BAFIROLEN_V2_ONLY};
    uint8_t m[100];
    uint32_t mode;
    size_t i;
    written_is("H", written(sound(H, sizeof H, 0), m, sizeof m), BAFIROLEN_ACCEPTED, sizeof m);
    for (i = 0; i < COUNT(which); i++) {
        for (mode = BAFIROLEN_TOLERANT; mode <= BAFIROLEN_STRICT; mode++) {
            fresh();
            body_is("H read back",
                    bafirolen_read_header_body(m, sizeof m, 0, which[i], mode, BAFIROLEN_NO_MAX, 0, pairs, NUMBERS, keys, NUMBERS),
                    want);
            table_is("its pair", pairs, want_pairs, 4);
            table_is("its key", keys, want_keys, 6);
        }
    }
    /* it is of version 2 now, and not reissued again */
    refused_at("of version 2", sound(m, sizeof m, 0), BAFIROLEN_REFUSED_OTHER_VERSION, 0, BYTES);
}

static BafirolenBody tolerant(const uint8_t *m, size_t n, uint32_t *p, uint32_t *k)
{
    return bafirolen_read_header_body(m, n, 0, BAFIROLEN_EITHER, BAFIROLEN_TOLERANT, BAFIROLEN_NO_MAX, 0, p, NUMBERS, k, NUMBERS);
}

/* tables of a draft and of what it became: places so many bytes farther on, and the same lengths */
static void farther(const char *what, const uint32_t *was, const uint32_t *now, size_t numbers, uint32_t by)
{
    size_t i;
    for (i = 0; i < numbers; i += 2) {
        same(what, now[i], (uint32_t)(was[i] + by));
        same(what, now[i + 1], was[i + 1]);
    }
}

/* what is read of a draft and of what it became: its pairs, keys, content type and frame length are the same */
static void reads_alike(const uint8_t *draft, size_t n, const uint8_t *image, size_t length, const struct request *r, uint32_t by)
{
    uint32_t p[NUMBERS], k[NUMBERS];
    const BafirolenBody a = tolerant(draft, n, p, k), b = tolerant(image, length, pairs, keys);
    const uint64_t want[BODY_FIELDS] = {0, 0, 2, 0, r->suite, a.numbers.contentType, 0, a.numbers.frameLength, BAFIROLEN_TODAY, 3,
                                        32, a.pairCount, a.keyCount, length - 32, 32, length};
    body_is("what was handed on", b, want);
    farther("its pairs", p, pairs, 4 * a.pairCount, 15);
    farther("its keys", k, keys, 6 * a.keyCount, by);
}

/* with bytes in front and behind: an authentication record, or a header, or nothing */
static void wherever(const struct handed_on *h, uint32_t suite)
{
    static const size_t starts[] = {0, 1, 29};
    static const struct {
        const uint8_t *bytes;
        size_t length;
    } behind[] = {{H, 0}, {fresh_bytes, 28}, {V2, sizeof V2}};
    uint8_t m[2 * BYTES], image[BYTES];
    struct request r = sound(m, 0, 0);
    size_t i, k, n, length;
    r.suite = suite;
    length = second_of(image, h, &r);
    for (i = 0; i < COUNT(starts); i++) {
        for (k = 0; k < COUNT(behind); k++) {
            memset(m, 2, starts[i]);
            n = first_of(m + starts[i], h);
            same("how much longer", length - n, in_the_old_form(h) ? 40 : 42);
            r.start = starts[i];
            r.text_len = append(m, starts[i] + n, behind[k].bytes, behind[k].length);
            becomes("a draft", r, image, length);
        }
    }
    n = first_of(m, h);
    reads_alike(m, n, image, length, &r, in_the_old_form(h) ? 13 : 15);
}

/* every draft of these sections and ends, under both suites */
static void drafts(void)
{
    static const struct {
        const void *bytes;
        size_t length;
    } contexts[] = {{"\0\0", 2}, {"\0\2\0\0", 4}, {H + 20, 14}, {V2 + 35, 18}, {"\0\6\0\1\0\0\0\0", 8}},
      sections[] = {{H + 34, 14}, {V2 + 53, 18}, {"\0\1\0\0\0\0\0\0", 8}, {"\0\2\0\2p1\0\1\xFF\0\0\0\1p\0\0\0\2\0\1", 20}},
      ends[] = {{"\1\0\0\0\0", 5}, {"\2\0\0\0\1", 5}, {"\2\0\0\x10\0", 5}, {"\2\xFF\xFF\xFF\xFF", 5}};
    size_t i, k, l;
    for (i = 0; i < COUNT(contexts); i++) {
        for (k = 0; k < COUNT(sections); k++) {
            for (l = 0; l < COUNT(ends); l++) {
                const struct handed_on h = {contexts[i].bytes,   sections[k].bytes, contexts[i].length,
                                            sections[k].length, ends[l].bytes,     (const uint8_t *)ends[l].bytes + 1};
                wherever(&h, 0x0478);
                wherever(&h, 0x0578);
            }
        }
    }
}

/* a body of this shape, which has 10 bytes behind its keys */
static void shaped(struct shape s)
{
    static uint8_t image[sizeof body.bytes + 64];
    struct handed_on h;
    struct request r;
    build(s);
    r = sound(body.bytes, body.length, 0);
    h.context = body.bytes + body.context;
    h.context_len = body.keys - body.context;
    h.keys = body.bytes + body.keys;
    h.keys_len = body.length - 10 - body.keys;
    h.type = body.bytes + body.length - 10;
    h.frame_length = body.bytes + body.length - 4;
    if (s.fault == KEY_AGAIN && s.pairs > 1) {
        refused_by("a key again", r, BAFIROLEN_REFUSED_KEY_SEEN_BEFORE);
    } else if (s.fault == BAD_VALUE && s.pairs > 0) {
        refused_by("a bad value", r, BAFIROLEN_REFUSED_VALUE_NOT_UTF8);
    } else if (s.fault == MANY_CLAIMED && s.pairs > 0) {
        refused_by("many claimed", r, BAFIROLEN_REFUSED_PAST_SECTION);
    } else if (s.keys == 0) {
        refused_by("a body without a key", r, BAFIROLEN_REFUSED_NO_ENCRYPTED_DATA_KEY);
    } else {
        becomes("a body", r, image, second_of(image, &h, &r));
    }
}

/* without pairs in both forms; on each side of the sizes that the index of seen keys has, 32 and 1,024; the most of each */
static void shapes(void)
{
    static const uint32_t pairs_of[] = {0, 1, 2, 32, 33, 1024, 1025}, keys_of[] = {0, 1, 2, 60};
    static const struct shape large[] = {{1, MOST_PAIRS, 3, SHUFFLED, NO_FAULT, BAFIROLEN_TODAY},
                                         {1, 1, MOST_KEYS, ASCENDING, NO_FAULT, BAFIROLEN_TODAY},
                                         {1, 0, MOST_KEYS, ASCENDING, NO_FAULT, BAFIROLEN_OLD}};
    struct shape s = {1, 0, 0, SHUFFLED, NO_FAULT, BAFIROLEN_TODAY};
    size_t i, k;
    for (i = 0; i < COUNT(pairs_of); i++) {
        for (k = 0; k < COUNT(keys_of); k++) {
            s.pairs = pairs_of[i];
            s.keys = keys_of[k];
            for (s.fault = NO_FAULT; s.fault <= MANY_CLAIMED; s.fault++) {
                s.form = BAFIROLEN_TODAY;
                shaped(s);
                s.form = BAFIROLEN_OLD;
                if (s.pairs == 0) {
                    shaped(s);
                }
            }
        }
    }
    for (i = 0; i < COUNT(large); i++) {
        shaped(large[i]);
    }
}

/* parts that are only read may overlap: ID and suite data are bytes of the draft, and of one another */
static void overlapping(void)
{
    const struct handed_on h = {H + 20, H + 34, 14, 14, H + 48, H + 54};
    uint8_t image[BYTES];
    struct request r = sound(H, sizeof H, 0);
    r.id = H;
    r.data = H + 26;
    fits("parts that overlap", r, image, second_of(image, &h, &r));
    r.data = H + 16;
    fits("parts that overlap", r, image, second_of(image, &h, &r));
}

int main(void)
{
    fresh();
    in_full();
    read_of_h();
    drafts();
    shapes();
    overlapping();
    return compared();
}
