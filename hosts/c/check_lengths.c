/*
 * A host in C: how long a body is, asked before it is written, each part an allocation of exactly the bytes that are lent. The body
 * is then written into an allocation of just that length, into one of a byte more, which keeps it, and into one of a byte less,
 * which is refused by 28; and what the length is refused by, the writer answers without room and with plenty. Writes `compared N
 * cases`; a difference is written to standard error, and the exit status is 1.
 *
 *     tools/archives
 *     gcc -std=c99 -O2 -Wall -Wextra -Iinclude hosts/c/check_lengths.c target/staticlib/libbafirolen_c.a -o target/check_lengths
 *     valgrind --error-exitcode=1 target/check_lengths
 */
#include "bodies.h"
#include "lending.h"

/* what the writer is lent beside the output */
struct request {
    BafirolenNumbers numbers;
    const uint8_t *id, *data, *text;
    const uint32_t *pairs, *keys;
    size_t id_len, data_len, text_len, pairs_len, keys_len;
};

static struct request lend_all(struct request r)
{
    r.id = lend_const(r.id, r.id_len);
    r.data = lend_const(r.data, r.data_len);
    r.text = lend_const(r.text, r.text_len);
    r.pairs = lend_const(r.pairs, r.pairs_len * sizeof *r.pairs);
    r.keys = lend_const(r.keys, r.keys_len * sizeof *r.keys);
    return r;
}

static BafirolenWritten measured(struct request r)
{
    return bafirolen_header_body_len(r.numbers, r.id, r.id_len, r.data, r.data_len, r.text, r.text_len, r.pairs, r.pairs_len,
                                     r.keys, r.keys_len);
}

static BafirolenWritten written(struct request r, uint8_t *o, size_t room)
{
    return bafirolen_write_header_body(r.numbers, r.id, r.id_len, r.data, r.data_len, r.text, r.text_len, r.pairs, r.pairs_len,
                                       r.keys, r.keys_len, o, room);
}

#include "measured.h"

static void takes(const char *what, struct request r, const uint8_t *image, size_t length)
{
    r = lend_all(r);
    fits(what, r, image, length);
    let_go();
}

/* a body of this shape, by its own bytes as the text */
static void shaped(struct shape s)
{
    const size_t id = s.version == 1 ? 4 : 3, data = s.version == 1 ? 0 : 32;
    struct request r;
    build(s);
    r.numbers = numbers_of(s);
    r.id = body.bytes + id;
    r.id_len = s.version == 1 ? 16 : 32;
    r.data = body.bytes + body.length - data;
    r.data_len = data;
    r.text = body.bytes;
    r.text_len = body.length;
    r.pairs = body.pair_table;
    r.pairs_len = 4 * s.pairs;
    r.keys = body.key_table;
    r.keys_len = 6 * s.keys;
    if (s.fault == KEY_AGAIN && s.pairs > 1) {
        refused_by("a key again", r, BAFIROLEN_REFUSED_KEY_SEEN_BEFORE);
    } else if (s.fault == BAD_VALUE && s.pairs > 0) {
        refused_by("a bad value", r, BAFIROLEN_REFUSED_VALUE_NOT_UTF8);
    } else if (s.keys == 0) {
        refused_by("a body without a key", r, BAFIROLEN_REFUSED_NO_ENCRYPTED_DATA_KEY);
    } else {
        takes("a body", r, body.bytes, body.length);
    }
}

/* without pairs in both forms; on each side of the sizes that the index of seen keys has, 32 and 1,024 */
static void shapes(void)
{
    static const uint32_t pairs_of[] = {0, 1, 2, 3, 32, 33, 1024, 1025}, keys_of[] = {0, 1, 2, 3, 60};
    struct shape s;
    size_t i, k;
    for (i = 0; i < COUNT(pairs_of); i++) {
        for (k = 0; k < COUNT(keys_of); k++) {
            s.pairs = pairs_of[i];
            s.keys = keys_of[k];
            s.order = SHUFFLED;
            for (s.version = 1; s.version <= 2; s.version++) {
                for (s.fault = NO_FAULT; s.fault <= BAD_VALUE; s.fault++) {
                    s.form = BAFIROLEN_TODAY;
                    shaped(s);
                    s.form = BAFIROLEN_OLD;
                    if (s.pairs == 0) {
                        shaped(s);
                    }
                }
            }
        }
    }
}

/* H, and letters behind it for what is too long; and a table of too many */
static uint8_t text[65700];
static const uint32_t many[6 * 65536];

static const uint32_t outside[4] = {26, 4, 65699, 2}, long_value[4] = {26, 4, 58, 65536}, bad_key[4] = {45, 3, 32, 2};
static const uint32_t bad_value[4] = {26, 4, 45, 3}, again[8] = {26, 4, 32, 2, 26, 4, 32, 2}, all[4] = {26, 0, 58, 65530};
static const uint32_t outside_key[6] = {38, 2, 42, 1, 65699, 2}, long_key[6] = {38, 2, 58, 65536, 45, 3};
static const uint32_t bad_provider[6] = {45, 3, 42, 1, 45, 3};

/* H's fields with one fault, which decides, in the order of the tests */
static const struct fault_row {
    const char *what;
    BafirolenNumbers numbers;
    size_t id, data;
    const uint32_t *pairs, *keys;
    size_t pairs_len, keys_len;
    uint64_t number;
} rows[] = {{"version", {3, 0x80, 0x0178, 2, 12, 4096, 0}, 16, 0, H_pairs, H_keys, 4, 6, 3},
            {"type", {1, 0x81, 0x0178, 2, 12, 4096, 0}, 16, 0, H_pairs, H_keys, 4, 6, 5},
            {"suite", {1, 0x80, 0x0179, 2, 12, 4096, 0}, 16, 0, H_pairs, H_keys, 4, 6, 6},
            {"suite of version 2", {1, 0x80, 0x0478, 2, 12, 4096, 0}, 16, 0, H_pairs, H_keys, 4, 6, 7},
            {"ID", {1, 0x80, 0x0178, 2, 12, 4096, 0}, 15, 0, H_pairs, H_keys, 4, 6, 24},
            {"pairs not in fours", {1, 0x80, 0x0178, 2, 12, 4096, 0}, 16, 0, again, H_keys, 5, 6, 26},
            {"a pair outside", {1, 0x80, 0x0178, 2, 12, 4096, 0}, 16, 0, outside, H_keys, 4, 6, 26},
            {"too many pairs", {1, 0x80, 0x0178, 2, 12, 4096, 0}, 16, 0, many, H_keys, 4 * 65536, 6, 27},
            {"a long value", {1, 0x80, 0x0178, 2, 12, 4096, 0}, 16, 0, long_value, H_keys, 4, 6, 27},
            {"a bad key", {1, 0x80, 0x0178, 2, 12, 4096, 0}, 16, 0, bad_key, H_keys, 4, 6, 10},
            {"a bad value", {1, 0x80, 0x0178, 2, 12, 4096, 0}, 16, 0, bad_value, H_keys, 4, 6, 11},
            {"a key again", {1, 0x80, 0x0178, 2, 12, 4096, 0}, 16, 0, again, H_keys, 8, 6, 12},
            {"long pairs", {1, 0x80, 0x0178, 2, 12, 4096, 0}, 16, 0, all, H_keys, 4, 6, 13},
            {"a pair marked old", {1, 0x80, 0x0178, 2, 12, 4096, 1}, 16, 0, H_pairs, H_keys, 4, 6, 33},
            {"keys not in sixes", {1, 0x80, 0x0178, 2, 12, 4096, 0}, 16, 0, H_pairs, H_keys, 4, 5, 26},
            {"a key outside", {1, 0x80, 0x0178, 2, 12, 4096, 0}, 16, 0, H_pairs, outside_key, 4, 6, 26},
            {"too many keys", {1, 0x80, 0x0178, 2, 12, 4096, 0}, 16, 0, H_pairs, many, 4, 6 * 65536, 27},
            {"a long part of a key", {1, 0x80, 0x0178, 2, 12, 4096, 0}, 16, 0, H_pairs, long_key, 4, 6, 27},
            {"a bad provider", {1, 0x80, 0x0178, 2, 12, 4096, 0}, 16, 0, H_pairs, bad_provider, 4, 6, 16},
            {"content type", {1, 0x80, 0x0178, 3, 12, 4096, 0}, 16, 0, H_pairs, H_keys, 4, 6, 17},
            {"IV length", {1, 0x80, 0x0178, 2, 0x10C, 4096, 0}, 16, 0, H_pairs, H_keys, 4, 6, 19},
            {"suite data", {1, 0x80, 0x0178, 2, 12, 4096, 0}, 16, 1, H_pairs, H_keys, 4, 6, 25},
            {"frame length", {1, 0x80, 0x0178, 2, 12, 0, 0}, 16, 0, H_pairs, H_keys, 4, 6, 20}};

/* each row, and the same with an empty key table: up to 33 its fault is tested first, and from then on 38 is */
static void refusals(void)
{
    int keys_tested = 0;
    size_t i;
    memcpy(text, H, sizeof H);
    memset(text + sizeof H, 'z', sizeof text - sizeof H);
    for (i = 0; i < COUNT(rows); i++) {
        struct request r = {rows[i].numbers, text + 4, text, text, rows[i].pairs, rows[i].keys, rows[i].id, rows[i].data,
                            sizeof text, rows[i].pairs_len, rows[i].keys_len};
        refused_by(rows[i].what, r, rows[i].number);
        r.keys_len = 0;
        refused_by(rows[i].what, r, keys_tested ? BAFIROLEN_REFUSED_NO_ENCRYPTED_DATA_KEY : rows[i].number);
        keys_tested = keys_tested || rows[i].number == BAFIROLEN_REFUSED_PAIR_IN_OLD_FORM;
    }
}

/* without a key it is 38 whatever its form, and with text or without; a table that is not in sixes is no empty one; and a key of
 * empty parts is a key: a body of version 1 has 34 bytes and 6 then */
static void keyless(void)
{
    struct request r = {{1, 0x80, 0x0178, 2, 12, 4096, BAFIROLEN_TODAY}, text + 4, text, text, many, many, 16, 0, 0, 0, 0};
    uint8_t image[BYTES];
    uint32_t form;
    for (form = BAFIROLEN_TODAY; form <= 2; form++) {
        r.numbers.form = form;
        for (r.text_len = 0; r.text_len <= sizeof H; r.text_len += sizeof H) {
            r.keys_len = 0;
            refused_by("neither a pair nor a key", r, BAFIROLEN_REFUSED_NO_ENCRYPTED_DATA_KEY);
            for (r.keys_len = 1; r.keys_len < 6; r.keys_len++) {
                refused_by("a part of a key", r, BAFIROLEN_REFUSED_TABLE_OR_PLACE);
            }
            takes("a key of empty parts", r, image, header_in_form(image, 1, form, "\0\1\0\0\0\0\0\0", 8));
        }
    }
}

int main(void)
{
    shapes();
    refusals();
    keyless();
    return compared();
}
