/*
 * A host in C: the form of a header body, which the readers give and the writer follows. A body that was read is written again to
 * the bytes that it was read from; a number that names no form is old; and a pair in a body that is marked old is refused after
 * whatever the pairs are refused by, and before the keys. Writes `compared N cases`; a difference is written to standard error,
 * and the exit status is 1.
 *
 *     tools/archives
 *     gcc -std=c99 -O2 -Wall -Wextra -Iinclude hosts/c/check_forms.c target/staticlib/libbafirolen_c.a -o target/check_forms
 */
#include "compare.h"

/* numbers that a writer reads as old: some of them have 0 in their lowest 8 or 16 bits */
static const uint32_t old[] = {BAFIROLEN_OLD, 2, 255, 256, 0x10000, 0x80000000u, 0xFFFFFFFFu};

/* a message, and what was read of it; its tables are `pairs` and `keys` */
struct read {
    const uint8_t *message;
    size_t length;
    BafirolenBody body;
};

static struct read read_at(const uint8_t *m, size_t n, uint64_t start, uint32_t which, uint32_t mode)
{
    struct read r = {m, n, {0, 0, {0, 0, 0, 0, 0, 0, 0}, 0, 0, 0, 0, 0, 0, 0}};
    fresh();
    r.body = bafirolen_read_header_body(m, n, start, which, mode, BAFIROLEN_NO_MAX, 0, pairs, NUMBERS, keys, NUMBERS);
    return r;
}

/* how long what was read is, marked so */
static BafirolenWritten length_marked(struct read r, uint32_t form)
{
    const BafirolenBody b = r.body;
    BafirolenNumbers n = b.numbers;
    n.form = form;
    return bafirolen_header_body_len(n, r.message + b.messageIdStart, b.messageIdLen, r.message + b.suiteDataStart,
                                     b.suiteDataLen, r.message, r.length, pairs, 4 * b.pairCount, keys, 6 * b.keyCount);
}

/* writes what was read, marked so */
static BafirolenWritten write_marked(struct read r, uint32_t form, size_t room)
{
    const BafirolenBody b = r.body;
    BafirolenNumbers n = b.numbers;
    n.form = form;
    memset(out, KEPT, sizeof out);
    return bafirolen_write_header_body(n, r.message + b.messageIdStart, b.messageIdLen, r.message + b.suiteDataStart,
                                       b.suiteDataLen, r.message, r.length, pairs, 4 * b.pairCount, keys, 6 * b.keyCount, out,
                                       room);
}

/* what is written is the image: into exactly its length and into more, and not into a byte less */
static void written_to(const char *what, struct read r, uint32_t form, const uint8_t *image, size_t length)
{
    const size_t rooms[3] = {length, BYTES, length - 1};
    size_t i;
    written_is(what, length_marked(r, form), BAFIROLEN_ACCEPTED, length);
    for (i = 0; i < COUNT(rooms); i++) {
        const size_t n = rooms[i] < length ? 0 : length;
        const BafirolenWritten w = write_marked(r, form, rooms[i]);
        written_is(what, w, n == 0 ? BAFIROLEN_REFUSED_OUTPUT_TOO_SHORT : 0, n);
        output_is(what, image, n);
    }
}

/* by every reader that takes it, at the front of a message and behind other bytes */
static void refile(const char *what, const uint8_t *header, size_t length)
{
    const uint32_t form = form_of(header), versions[3] = {BAFIROLEN_EITHER, header[0], 3}, modes[3] = {0, 1, 256};
    uint8_t m[BYTES];
    size_t start, i, k;
    for (start = 0; start <= 3; start += 3) {
        memset(m, KEPT, sizeof m);
        memcpy(m + start, header, length);
        for (i = 0; i < COUNT(versions); i++) {
            for (k = 0; k < COUNT(modes); k++) {
                const struct read r = read_at(m, start + length + 3 * k, start, versions[i], modes[k]);
                const int refused = form == BAFIROLEN_OLD && modes[k] != BAFIROLEN_TOLERANT;
                same(what, r.body.number, refused ? BAFIROLEN_REFUSED_OLD_EMPTY_CONTEXT : BAFIROLEN_ACCEPTED);
                same(what, r.body.position, 0);
                same(what, r.body.tail, refused ? 0 : start + length);
                same(what, r.body.numbers.form, refused ? 0 : form);
                if (!refused) {
                    written_to(what, r, r.body.numbers.form, header, length);
                }
            }
        }
    }
}

/* the fields of a header without pairs under every mark; what was written is read again with the same numbers */
static void every_mark(uint32_t version, uint32_t form)
{
    uint8_t m[BYTES], today[BYTES], as_old[BYTES];
    const size_t n = bare_header(m, version, form), n_today = bare_header(today, version, BAFIROLEN_TODAY);
    const size_t n_old = bare_header(as_old, version, BAFIROLEN_OLD);
    const struct read r = read_at(m, n, 0, BAFIROLEN_EITHER, BAFIROLEN_TOLERANT);
    BafirolenNumbers wanted = r.body.numbers;
    struct read again;
    size_t i;
    same("an old form", n_old, n_today + 2);
    written_to("marked today's", r, BAFIROLEN_TODAY, today, n_today);
    for (i = 0; i < COUNT(old); i++) {
        written_to("marked old", r, old[i], as_old, n_old);
    }
    again = read_at(as_old, n_old, 0, BAFIROLEN_EITHER, BAFIROLEN_TOLERANT);
    wanted.form = BAFIROLEN_OLD;
    same_bytes("read again", &again.body.numbers, &wanted, sizeof wanted);
}

/* H, and letters behind it: some for a part that is too long, or for pairs that are; and tables of too many */
static uint8_t text[65700];
static const uint32_t many[6 * 65536];

/* what the writer is asked, of the text */
struct request {
    BafirolenNumbers numbers;
    size_t id, data, room;
    const uint32_t *pairs, *keys;
    size_t pairs_len, keys_len;
};

static const struct request sound = {{1, 0x80, 0x0178, 2, 12, 4096, BAFIROLEN_TODAY}, 16, 0, 58, H_pairs, H_keys, 4, 6};

/* by the length as well, but for an output that is too short: that has no output, and gives the 58 of H */
static void refused_by(const char *what, struct request r, uint64_t number)
{
    const int too_short = number == BAFIROLEN_REFUSED_OUTPUT_TOO_SHORT;
    BafirolenWritten w;
    fresh();
    w = bafirolen_header_body_len(r.numbers, text + 4, r.id, text, r.data, text, sizeof text, r.pairs, r.pairs_len, r.keys,
                                  r.keys_len);
    written_is(what, w, too_short ? BAFIROLEN_ACCEPTED : number, too_short ? 58 : 0);
    w = bafirolen_write_header_body(r.numbers, text + 4, r.id, text, r.data, text, sizeof text, r.pairs, r.pairs_len, r.keys,
                                    r.keys_len, out, r.room);
    written_is(what, w, number, 0);
    output_is(what, fresh_bytes, 0);
}

/* a request with a fault, and the same marked old: of two faults the first that is tested is answered */
static void with_a_pair(const char *what, struct request r, uint64_t number, uint64_t marked)
{
    size_t i;
    refused_by(what, r, number);
    for (i = 0; i < COUNT(old); i++) {
        r.numbers.form = old[i];
        refused_by(what, r, marked);
    }
}

static void faulty_tables(void)
{
    static const uint32_t outside[4] = {26, 4, 65699, 2}, long_value[4] = {26, 4, 58, 65536}, bad_key[4] = {45, 3, 32, 2};
    static const uint32_t bad_value[4] = {26, 4, 45, 3}, again[8] = {26, 4, 32, 2, 26, 4, 32, 2}, all[4] = {26, 0, 58, 65530};
    static const uint32_t outside_key[6] = {38, 2, 42, 1, 65699, 2}, long_key[6] = {38, 2, 58, 65536, 45, 3};
    static const uint32_t bad_provider[6] = {45, 3, 42, 1, 45, 3};
    static const struct {
        const char *what;
        const uint32_t *table;
        size_t length;
        uint64_t number;
    } pair_rows[] = {{"pairs not in fours", again, 5, BAFIROLEN_REFUSED_TABLE_OR_PLACE},
                     {"a pair outside", outside, 4, BAFIROLEN_REFUSED_TABLE_OR_PLACE},
                     {"too many pairs", many, 4 * 65536, BAFIROLEN_REFUSED_COUNT_OR_PART_TOO_LONG},
                     {"a long value", long_value, 4, BAFIROLEN_REFUSED_COUNT_OR_PART_TOO_LONG},
                     {"a bad key", bad_key, 4, BAFIROLEN_REFUSED_KEY_NOT_UTF8},
                     {"a bad value", bad_value, 4, BAFIROLEN_REFUSED_VALUE_NOT_UTF8},
                     {"a key again", again, 8, BAFIROLEN_REFUSED_KEY_SEEN_BEFORE},
                     {"long pairs", all, 4, BAFIROLEN_REFUSED_PAIRS_TOO_LONG}},
      key_rows[] = {{"keys not in sixes", H_keys, 5, BAFIROLEN_REFUSED_TABLE_OR_PLACE},
                    {"a key outside", outside_key, 6, BAFIROLEN_REFUSED_TABLE_OR_PLACE},
                    {"too many keys", many, 6 * 65536, BAFIROLEN_REFUSED_COUNT_OR_PART_TOO_LONG},
                    {"a long part of a key", long_key, 6, BAFIROLEN_REFUSED_COUNT_OR_PART_TOO_LONG},
                    {"no key", H_keys, 0, BAFIROLEN_REFUSED_NO_ENCRYPTED_DATA_KEY},
                    {"a bad provider", bad_provider, 6, BAFIROLEN_REFUSED_PROVIDER_ID_NOT_UTF8}};
    size_t i;
    for (i = 0; i < COUNT(pair_rows); i++) {
        struct request r = sound;
        r.pairs = pair_rows[i].table;
        r.pairs_len = pair_rows[i].length;
        with_a_pair(pair_rows[i].what, r, pair_rows[i].number, pair_rows[i].number);
    }
    for (i = 0; i < COUNT(key_rows); i++) {
        struct request r = sound;
        r.keys = key_rows[i].table;
        r.keys_len = key_rows[i].length;
        with_a_pair(key_rows[i].what, r, key_rows[i].number, BAFIROLEN_REFUSED_PAIR_IN_OLD_FORM);
    }
}

static void faulty_fields(void)
{
    static const struct {
        const char *what;
        BafirolenNumbers numbers;
        size_t id, data, room;
        uint64_t number, marked;
    } rows[] = {{"version", {3, 0x80, 0x0178, 2, 12, 4096, 0}, 16, 0, 58, 3, 3},
                {"type", {1, 0x81, 0x0178, 2, 12, 4096, 0}, 16, 0, 58, 5, 5},
                {"suite", {1, 0x80, 0x0179, 2, 12, 4096, 0}, 16, 0, 58, 6, 6},
                {"suite of version 2", {1, 0x80, 0x0478, 2, 12, 4096, 0}, 16, 0, 58, 7, 7},
                {"ID", {1, 0x80, 0x0178, 2, 12, 4096, 0}, 15, 0, 58, 24, 24},
                {"content type", {1, 0x80, 0x0178, 3, 12, 4096, 0}, 16, 0, 58, 17, 33},
                {"IV length", {1, 0x80, 0x0178, 2, 13, 4096, 0}, 16, 0, 58, 19, 33},
                {"suite data", {1, 0x80, 0x0178, 2, 12, 4096, 0}, 16, 1, 58, 25, 33},
                {"frame length", {1, 0x80, 0x0178, 2, 12, 0, 0}, 16, 0, 58, 20, 33},
                {"output", {1, 0x80, 0x0178, 2, 12, 4096, 0}, 16, 0, 57, 28, 33}};
    size_t i;
    for (i = 0; i < COUNT(rows); i++) {
        struct request r = sound;
        r.numbers = rows[i].numbers;
        r.id = rows[i].id;
        r.data = rows[i].data;
        r.room = rows[i].room;
        with_a_pair(rows[i].what, r, rows[i].number, rows[i].marked);
    }
}

int main(void)
{
    uint8_t m[BYTES];
    uint32_t version, form;
    size_t i;
    memcpy(text, H, sizeof H);
    memset(text + sizeof H, 'z', sizeof text - sizeof H);
    refile("H", H, sizeof H);
    for (version = 1; version <= 2; version++) {
        for (form = BAFIROLEN_TODAY; form <= BAFIROLEN_OLD; form++) {
            refile("a header without pairs", m, bare_header(m, version, form));
            every_mark(version, form);
        }
    }
    for (i = 0; i < COUNT(old); i++) {
        struct request r = sound;
        r.numbers.form = old[i];
        refused_by("a pair marked old", r, BAFIROLEN_REFUSED_PAIR_IN_OLD_FORM);
        r.pairs = many;
        refused_by("a pair of empty parts marked old", r, BAFIROLEN_REFUSED_PAIR_IN_OLD_FORM);
        r.pairs_len = r.keys_len = 0;
        refused_by("neither a pair nor a key, marked old", r, BAFIROLEN_REFUSED_NO_ENCRYPTED_DATA_KEY);
    }
    faulty_tables();
    faulty_fields();
    return compared();
}
