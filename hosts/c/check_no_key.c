/*
 * A host in C: what has no encrypted data key is refused by 38. A reader says so as soon as the count of keys is read, and looks at
 * nothing behind it; whatever stands before the count is refused first. Each part is an allocation of exactly the bytes that are
 * lent, and the tables and outputs keep theirs. check_lengths.c has bodies that are to be written without a key. Writes `compared N
 * cases`; a difference is written to standard error, and the exit status is 1.
 *
 *     tools/archives
 *     gcc -std=c99 -O2 -Wall -Wextra -Iinclude hosts/c/check_no_key.c target/staticlib/libbafirolen_c.a -o target/check_no_key
 *     valgrind --error-exitcode=1 target/check_no_key
 */
#include "lending.h"

/* 1, 2 and 38 come before any maximum, and the last before any key is put into a table */
static void section_refused(const char *what, const uint8_t *m, size_t n, uint64_t start, uint64_t number, uint64_t position)
{
    static const struct {
        uint32_t has_max;
        uint64_t max;
        size_t numbers;
    } asked[] = {{BAFIROLEN_NO_MAX, 0, 6}, {BAFIROLEN_NO_MAX, 0, 0}, {BAFIROLEN_NO_MAX, 7, 64}, {BAFIROLEN_AT_MOST, 0, 6},
                 {BAFIROLEN_AT_MOST, 0, 0}, {BAFIROLEN_AT_MOST, 1, 5}, {BAFIROLEN_AT_MOST, UINT64_MAX, 6}, {256, 0, 6},
                 {0xFFFFFFFFu, 4294967296u, 6}};
    BafirolenSection s;
    size_t i;
    fresh();
    for (i = 0; i < COUNT(asked); i++) {
        uint32_t *table = lend(fresh_numbers, asked[i].numbers * sizeof *table);
        s = bafirolen_read_encrypted_data_keys_section(lend_const(m, n), n, start, asked[i].has_max, asked[i].max, table,
                                                       asked[i].numbers);
        section_is(what, s, number, position, 0, 0);
        same_bytes(what, table, fresh_numbers, asked[i].numbers * sizeof *table);
        let_go();
    }
}

static void sections(void)
{
    static const uint8_t none[8] = {0, 0, 0xFF, 0xFF, 0xFF, 0xFF, 0xFF, 0xFF}, behind[8] = {0, 1, 2, 0, 0, 0xFF, 0xFF, 0xFF};
    static const uint8_t many[8] = {1, 0}, one[8] = {0, 1};
    BafirolenSection s;
    section_refused("no key", none, 2, 0, BAFIROLEN_REFUSED_NO_ENCRYPTED_DATA_KEY, 0);
    section_refused("no key, and more bytes", none, 8, 0, BAFIROLEN_REFUSED_NO_ENCRYPTED_DATA_KEY, 0);
    section_refused("no key behind a start", behind, 5, 3, BAFIROLEN_REFUSED_NO_ENCRYPTED_DATA_KEY, 0);
    section_refused("no key behind a start, and more bytes", behind, 8, 3, BAFIROLEN_REFUSED_NO_ENCRYPTED_DATA_KEY, 0);
    section_refused("no count", none, 0, 0, BAFIROLEN_REFUSED_SHORTAGE, 2);
    section_refused("a count cut", none, 1, 0, BAFIROLEN_REFUSED_SHORTAGE, 2);
    section_refused("a count cut behind a start", behind, 4, 3, BAFIROLEN_REFUSED_SHORTAGE, 5);
    section_refused("a start behind the count", none, 2, 2, BAFIROLEN_REFUSED_SHORTAGE, 4);
    section_refused("a start of 33 bits", none, 2, 4294967296u, BAFIROLEN_REFUSED_NOT_ADDRESSABLE, 0);
    /* a count with one byte that is 0 is above 0, and then a maximum is looked at */
    fresh();
    s = bafirolen_read_encrypted_data_keys_section(many, 2, 0, BAFIROLEN_NO_MAX, 0, keys, NUMBERS);
    section_is("256 keys", s, BAFIROLEN_REFUSED_SHORTAGE, 4, 0, 0);
    s = bafirolen_read_encrypted_data_keys_section(many, 2, 0, BAFIROLEN_AT_MOST, 255, keys, NUMBERS);
    section_is("256 keys, at most 255", s, BAFIROLEN_REFUSED_TOO_MANY_KEYS, 0, 0, 0);
    s = bafirolen_read_encrypted_data_keys_section(one, 2, 0, BAFIROLEN_AT_MOST, 0, keys, NUMBERS);
    section_is("1 key, at most 0", s, BAFIROLEN_REFUSED_TOO_MANY_KEYS, 0, 0, 0);
    table_is("nothing accepted", keys, fresh_numbers, 0);
    s = bafirolen_read_encrypted_data_keys_section(one, 8, 0, BAFIROLEN_AT_MOST, 1, keys, NUMBERS);
    section_is("a key of empty parts", s, BAFIROLEN_ACCEPTED, 0, 1, 8);
}

/* the body at a start, by one reader: with tables of nothing and of plenty, with no maximum and with one of 0 */
static void body_refused(const char *what, const uint8_t *m, size_t n, uint64_t start, uint32_t which, uint32_t mode,
                         uint64_t number, uint64_t position)
{
    const uint64_t want[BODY_FIELDS] = {number, position};
    size_t numbers;
    uint32_t has_max;
    fresh();
    for (numbers = 0; numbers <= 12; numbers += 12) {
        for (has_max = BAFIROLEN_NO_MAX; has_max <= BAFIROLEN_AT_MOST; has_max++) {
            uint32_t *p = lend(fresh_numbers, numbers * sizeof *p), *k = lend(fresh_numbers, numbers * sizeof *k);
            const uint8_t *message = lend_const(m, n);
            body_is(what, bafirolen_read_header_body(message, n, start, which, mode, has_max, 0, p, numbers, k, numbers), want);
            same_bytes(what, p, fresh_numbers, numbers * sizeof *p);
            same_bytes(what, k, fresh_numbers, numbers * sizeof *k);
            let_go();
        }
    }
}

/* what the reader of either version, tolerant, refuses the message by: the two calls say so, and at 0 the listing */
static void told(const char *what, const uint8_t *m, size_t n, uint64_t start, uint64_t number, uint64_t position)
{
    char line[64];
    const uint8_t *message = lend_const(m, n);
    const int length = snprintf(line, sizeof line, "refused\t%u\t%u\n", (unsigned)number, (unsigned)position);
    same(what, bafirolen_header_number(message, n, start), number);
    same(what, bafirolen_header_position(message, n, start), position);
    if (start == 0) {
        fresh();
        written_is(what, bafirolen_write_listing(message, n, out, BYTES), 0, (uint64_t)length);
        output_is(what, (const uint8_t *)line, (size_t)length);
    }
    let_go();
}

static const uint32_t readers[] = {BAFIROLEN_EITHER, BAFIROLEN_V1_ONLY, BAFIROLEN_V2_ONLY, 3};
static const uint32_t modes[] = {BAFIROLEN_TOLERANT, BAFIROLEN_STRICT, 256};

/* where the fields of a header without pairs end, by version and form, up to the count of keys; the old form's section is awaited
 * whole once its length is read */
static const size_t ends[2][2][8] = {{{1, 2, 4, 20, 22, 24}, {1, 2, 4, 20, 22, 24, 26}},
                                     {{1, 3, 35, 37, 39}, {1, 3, 35, 37, 39, 41}}};

/* the first n bytes of such a header: 2 at the next end, or 38 where there is none; once the version is read 4, where another is
 * asked for, and once the section is there 21, where it is the old form and that is not to be taken */
static void cut_at(const uint8_t *m, size_t n, uint64_t start, uint32_t version, uint32_t form)
{
    const size_t *end = ends[version - 1][form], context = version == 1 ? 20 : 35;
    size_t i, k;
    while (*end != 0 && *end <= n) {
        end++;
    }
    for (i = 0; i < COUNT(readers); i++) {
        for (k = 0; k < COUNT(modes); k++) {
            uint64_t number = *end == 0 ? BAFIROLEN_REFUSED_NO_ENCRYPTED_DATA_KEY : BAFIROLEN_REFUSED_SHORTAGE;
            if (form == BAFIROLEN_OLD && modes[k] != BAFIROLEN_TOLERANT && n >= context + 4) {
                number = BAFIROLEN_REFUSED_OLD_EMPTY_CONTEXT;
            }
            if (n > 0 && readers[i] == 3 - version) {
                number = BAFIROLEN_REFUSED_OTHER_VERSION;
            }
            body_refused("a cut", m, start + n, start, readers[i], modes[k], number,
                         number == BAFIROLEN_REFUSED_SHORTAGE ? start + *end : 0);
        }
    }
    told("a cut", m, start + n, start, *end == 0 ? BAFIROLEN_REFUSED_NO_ENCRYPTED_DATA_KEY : BAFIROLEN_REFUSED_SHORTAGE,
         *end == 0 ? 0 : start + *end);
}

/* every cut, at the message's front and behind other bytes */
static void cuts(uint32_t version, uint32_t form)
{
    uint8_t header[BYTES], m[BYTES];
    const size_t length = header_in_form(header, version, form, "\0\0", 2);
    size_t start, n;
    for (start = 0; start <= 3; start += 3) {
        memset(m, KEPT, sizeof m);
        memcpy(m + start, header, length);
        for (n = 0; n <= length; n++) {
            cut_at(m, n, start, version, form);
        }
    }
}

/* a header whose count of keys is 0, by every reader of its version */
static void header_refused(const char *what, const uint8_t *m, size_t n, uint32_t version, uint64_t number)
{
    size_t i, k;
    for (i = 0; i < COUNT(readers); i++) {
        for (k = 0; k < COUNT(modes); k++) {
            const uint64_t other = number == BAFIROLEN_REFUSED_UNKNOWN_VERSION ? number : BAFIROLEN_REFUSED_OTHER_VERSION;
            body_refused(what, m, n, 0, readers[i], modes[k], readers[i] == 3 - version ? other : number, 0);
        }
    }
    told(what, m, n, 0, number, 0);
}

/* nothing behind the count is looked at: content type, reserved bytes, IV length, frame length, nor how long a table is */
static void before_the_rest(uint32_t version)
{
    static const uint8_t fills[] = {0x00, 0x01, 0x02, 0x80, 0xFF};
    uint8_t m[BYTES];
    const size_t n = header_of(m, version, H + 20, 14, "\0\0", 2), behind = version == 1 ? 36 : 51;
    size_t i;
    header_refused("a pair and no key", m, n, version, BAFIROLEN_REFUSED_NO_ENCRYPTED_DATA_KEY);
    m[behind] = 3;
    header_refused("no key, and a bad content type", m, n, version, BAFIROLEN_REFUSED_NO_ENCRYPTED_DATA_KEY);
    m[behind] = BAFIROLEN_NON_FRAMED;
    header_refused("no key, and a frame length that is not 0", m, n, version, BAFIROLEN_REFUSED_NO_ENCRYPTED_DATA_KEY);
    for (i = 0; i < COUNT(fills); i++) {
        memset(m + behind, fills[i], n - behind);
        header_refused("no key, and other bytes", m, n, version, BAFIROLEN_REFUSED_NO_ENCRYPTED_DATA_KEY);
    }
}

/* what is refused of the context comes first */
static void behind_the_context(uint32_t version)
{
    static const struct {
        const char *what;
        uint8_t section[12], length;
        uint64_t number;
    } rows[] = {{"a count in an empty context", {0, 2, 0, 1}, 4, BAFIROLEN_REFUSED_COUNT_IN_EMPTY_CONTEXT},
                {"no count in a context", {0, 3, 0, 0, 0}, 5, BAFIROLEN_REFUSED_NO_COUNT_IN_CONTEXT},
                {"a count past its section", {0, 1, 0}, 3, BAFIROLEN_REFUSED_PAST_SECTION},
                {"a key past its section", {0, 4, 0, 1, 0, 5}, 6, BAFIROLEN_REFUSED_PAST_SECTION},
                {"a bad key", {0, 8, 0, 1, 0, 2, 0xC0, 0x80, 0, 0}, 10, BAFIROLEN_REFUSED_KEY_NOT_UTF8},
                {"a bad value", {0, 7, 0, 1, 0, 0, 0, 1, 0xFF}, 9, BAFIROLEN_REFUSED_VALUE_NOT_UTF8},
                {"a key again", {0, 10, 0, 2}, 12, BAFIROLEN_REFUSED_KEY_SEEN_BEFORE},
                {"a pair that ends early", {0, 7, 0, 1}, 9, BAFIROLEN_REFUSED_CONTEXT_LENGTH},
                {"a pair of empty parts", {0, 6, 0, 1}, 8, BAFIROLEN_REFUSED_NO_ENCRYPTED_DATA_KEY}};
    uint8_t m[BYTES];
    size_t i;
    for (i = 0; i < COUNT(rows); i++) {
        const size_t n = header_of(m, version, rows[i].section, rows[i].length, "\0\0", 2);
        header_refused(rows[i].what, m, n, version, rows[i].number);
    }
}

/* and so does what is refused of the opening */
static void behind_the_opening(void)
{
    static const struct {
        const char *what;
        uint32_t version;
        size_t place;
        uint8_t byte;
        uint64_t number;
    } rows[] = {{"version", 1, 0, 3, BAFIROLEN_REFUSED_UNKNOWN_VERSION},
                {"version", 2, 0, 0, BAFIROLEN_REFUSED_UNKNOWN_VERSION},
                {"type", 1, 1, 0x81, BAFIROLEN_REFUSED_MESSAGE_TYPE},
                {"suite", 1, 3, 0x79, BAFIROLEN_REFUSED_UNKNOWN_SUITE},
                {"suite", 2, 2, 0x79, BAFIROLEN_REFUSED_UNKNOWN_SUITE},
                {"suite of version 2", 1, 2, 0x04, BAFIROLEN_REFUSED_SUITE_OF_OTHER_VERSION},
                {"suite of version 1", 2, 1, 0x01, BAFIROLEN_REFUSED_SUITE_OF_OTHER_VERSION}};
    uint8_t m[BYTES];
    size_t i;
    for (i = 0; i < COUNT(rows); i++) {
        const size_t n = header_of(m, rows[i].version, "\0\0", 2, "\0\0", 2);
        m[rows[i].place] = rows[i].byte;
        header_refused(rows[i].what, m, n, rows[i].version, rows[i].number);
    }
}

/* the operations on a context section alone know nothing of keys */
static void context_alone(void)
{
    static const uint32_t required[2] = {26, 4};
    uint8_t m[BYTES];
    const size_t n = header_of(m, 1, H + 20, 14, "\0\0", 2);
    const BafirolenPlace p = bafirolen_find_value(m, n, 20, H + 26, 4);
    same("a value", p.number == BAFIROLEN_ACCEPTED && p.start == 32 && p.len == 2, 1);
    fresh();
    section_is("a context", bafirolen_read_aad_section(m, n, 20, BAFIROLEN_STRICT, pairs, NUMBERS), 0, 0, 1, 34);
    table_is("a context", pairs, H_pairs, 4);
    written_is("a copy", bafirolen_copy_value(m, n, 20, H + 26, 4, out, BYTES), 0, 2);
    output_is("a copy", H + 32, 2);
    fresh();
    written_is("what is authenticated", bafirolen_write_only_authenticated(m, n, 20, m, n, required, 2, out, BYTES), 0, 12);
    output_is("what is authenticated", H + 22, 12);
}

/* the key section's writer: an empty table into every room; 26 of one that is not in sixes; a key of empty parts is a key */
static void written_sections(void)
{
    static const uint32_t empty_key[6];
    size_t room, numbers;
    fresh();
    for (room = 0; room <= 16; room++) {
        for (numbers = 0; numbers <= 6; numbers++) {
            const uint64_t number = numbers == 0 ? BAFIROLEN_REFUSED_NO_ENCRYPTED_DATA_KEY
                                  : numbers < 6  ? BAFIROLEN_REFUSED_TABLE_OR_PLACE
                                  : room < 8     ? BAFIROLEN_REFUSED_OUTPUT_TOO_SHORT
                                                 : BAFIROLEN_ACCEPTED;
            const size_t n = number == BAFIROLEN_ACCEPTED ? 8 : 0;
            const uint8_t *text = lend_const(H, 58);
            const uint32_t *table = lend_const(empty_key, numbers * sizeof *empty_key);
            uint8_t *o = lend(fresh_bytes, room);
            const BafirolenWritten w = bafirolen_write_encrypted_data_keys_section(text, 58, table, numbers, o, room);
            written_is("a key section", w, number, n);
            same_bytes("a key section", o, "\0\1\0\0\0\0\0\0", n);
            same_bytes("a key section", o + n, fresh_bytes + n, room - n);
            let_go();
        }
    }
}

int main(void)
{
    uint32_t version, form;
    sections();
    for (version = 1; version <= 2; version++) {
        for (form = BAFIROLEN_TODAY; form <= BAFIROLEN_OLD; form++) {
            cuts(version, form);
        }
        before_the_rest(version);
        behind_the_context(version);
    }
    behind_the_opening();
    context_alone();
    written_sections();
    return compared();
}
