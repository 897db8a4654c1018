/*
 * A host in C: calls every exported operation that reads but two, and compares each number that it answers, and each byte and
 * table entry that it was lent, with what documents 01 and 02 say. Writes `compared N cases`; a difference is written to standard
 * error, and the exit status is 1. check_writers.c does the same for what writes, and for reading authentication records,
 * check_frames.c for reading frames, and check_no_key.c for reading what has no encrypted data key.
 *
 *     tools/archives
 *     gcc -std=c99 -O2 -Wall -Wextra -Iinclude hosts/c/check_readers.c target/staticlib/libbafirolen_c.a -o target/check_readers
 */
#include "compare.h"

/* what an accepted message here leaves in the tables: H's pair, or none; H's key, moved with the tail: 58 in H, 85 in version 2 */
static void tables_are(const char *what, BafirolenBody b)
{
    uint32_t moved[6];
    size_t i;
    for (i = 0; i < 6; i++) {
        moved[i] = H_keys[i] + (i % 2 == 0 ? (uint32_t)b.tail - (b.numbers.version == 1 ? 58 : 85) : 0);
    }
    table_is(what, pairs, H_pairs, 4 * b.pairCount);
    table_is(what, keys, moved, 6 * b.keyCount);
}

/* which, mode, has_max, max, numbers lent for pairs and for keys: number and position */
static void read_as(const char *what, const uint8_t *m, size_t n, uint64_t start, const uint64_t q[6], uint64_t number,
                    uint64_t position)
{
    static const uint64_t none[BODY_FIELDS];
    BafirolenBody b;
    fresh();
    b = bafirolen_read_header_body(m, n, start, (uint32_t)q[0], (uint32_t)q[1], (uint32_t)q[2], q[3], pairs, q[4], keys, q[5]);
    same(what, b.number, number);
    same(what, b.position, position);
    if (number == BAFIROLEN_ACCEPTED) {
        same(what, b.tail, n);
        same(what, b.keyCount, 1);
        same(what, b.numbers.form, form_of(m + start));
    } else {
        b.number = b.position = 0;
        body_is(what, b, none);
    }
    tables_are(what, b);
}

static void read_bodies(void)
{
    static const uint64_t want[BODY_FIELDS] = {0, 0, 1, 0x80, 0x0178, 2, 12, 4096, BAFIROLEN_TODAY, 4, 16, 1, 1, 0, 0, 58};
    static const uint64_t plain[6] = {0, 0, 0, 0, NUMBERS, NUMBERS};
    static const uint64_t few_pairs[6] = {0, 0, 0, 0, 3, 6}, few_keys[6] = {0, 0, 0, 0, 4, 5};
    static const uint64_t one[6] = {1, 0, 0, 0, 4, 6}, two[6] = {2, 0, 0, 0, 4, 6}, other[6] = {255, 0, 0, 0, 4, 6};
    static const uint64_t at_most_0[6] = {0, 0, 1, 0, 4, 6}, at_most_1[6] = {0, 1, 255, 1, 4, 6};
    struct {
        uint64_t before;
        BafirolenBody body;
        uint64_t after;
    } guarded = {KEPT, {0, 0, {0, 0, 0, 0, 0, 0, 0}, 0, 0, 0, 0, 0, 0, 0}, KEPT};
    fresh();
    guarded.body = bafirolen_read_header_body(H, 58, 0, 0, 0, 0, 0, pairs, NUMBERS, keys, NUMBERS);
    body_is("H", guarded.body, want);
    same("around H", guarded.before == KEPT && guarded.after == KEPT, 1);
    table_is("H's pairs", pairs, H_pairs, 4);
    table_is("H's keys", keys, H_keys, 6);
    read_as("H cut to 57", H, 57, 0, plain, BAFIROLEN_REFUSED_SHORTAGE, 58);
    read_as("H cut to 22", H, 22, 0, plain, BAFIROLEN_REFUSED_SHORTAGE, 34);
    read_as("start 70", H, 58, 70, plain, BAFIROLEN_REFUSED_SHORTAGE, 71);
    read_as("the empty message", H, 0, 0, plain, BAFIROLEN_REFUSED_SHORTAGE, 1);
    read_as("a start of 33 bits", H, 58, 4294967296u, plain, BAFIROLEN_REFUSED_NOT_ADDRESSABLE, 0);
    read_as("H at 1", H, 58, 1, plain, BAFIROLEN_REFUSED_UNKNOWN_VERSION, 0);
    read_as("version 1 only", H, 58, 0, one, BAFIROLEN_ACCEPTED, 0);
    read_as("version 2 only", H, 58, 0, two, BAFIROLEN_REFUSED_OTHER_VERSION, 0);
    read_as("another number", H, 58, 0, other, BAFIROLEN_ACCEPTED, 0);
    read_as("at most 0 keys", H, 58, 0, at_most_0, BAFIROLEN_REFUSED_TOO_MANY_KEYS, 0);
    read_as("at most 1 key", H, 58, 0, at_most_1, BAFIROLEN_ACCEPTED, 0);
    read_as("a pair table of 3", H, 58, 0, few_pairs, BAFIROLEN_REFUSED_PAIR_TABLE_TOO_SHORT, 0);
    read_as("a key table of 5", H, 58, 0, few_keys, BAFIROLEN_REFUSED_KEY_TABLE_TOO_SHORT, 0);
}

static void numbers_and_positions(void)
{
    same("number of H", bafirolen_header_number(H, 58, 0), 0);
    same("position of H", bafirolen_header_position(H, 58, 0), 58);
    same("number of H cut", bafirolen_header_number(H, 57, 0), BAFIROLEN_REFUSED_SHORTAGE);
    same("position of H cut", bafirolen_header_position(H, 57, 0), 58);
    same("number at 70", bafirolen_header_number(H, 58, 70), BAFIROLEN_REFUSED_SHORTAGE);
    same("position at 70", bafirolen_header_position(H, 58, 70), 71);
    same("number of a long start", bafirolen_header_number(H, 58, UINT64_MAX), BAFIROLEN_REFUSED_NOT_ADDRESSABLE);
    same("position of a long start", bafirolen_header_position(H, 58, UINT64_MAX), 0);
}

static void sections(void)
{
    static const struct {
        uint8_t bytes[13], len, mode, number, position, count, tail;
    } rows[] = {
        {{0}, 2, 0, 0, 0, 0, 2},
        {{0, 2}, 4, 0, 0, 0, 0, 4},
        {{0, 2}, 4, 1, BAFIROLEN_REFUSED_OLD_EMPTY_CONTEXT, 0, 0, 0},
        {{0, 2}, 4, 255, BAFIROLEN_REFUSED_OLD_EMPTY_CONTEXT, 0, 0, 0},
        {{0, 2, 0, 1}, 4, 0, BAFIROLEN_REFUSED_COUNT_IN_EMPTY_CONTEXT, 0, 0, 0},
        {{0, 3}, 5, 0, BAFIROLEN_REFUSED_NO_COUNT_IN_CONTEXT, 0, 0, 0},
        {{0, 1}, 2, 0, BAFIROLEN_REFUSED_SHORTAGE, 3, 0, 0},
        {{0, 1}, 3, 0, BAFIROLEN_REFUSED_PAST_SECTION, 0, 0, 0},
        {{0, 1}, 3, 1, BAFIROLEN_REFUSED_PAST_SECTION, 0, 0, 0},
        {{0, 1}, 4, 0, BAFIROLEN_REFUSED_PAST_SECTION, 0, 0, 0},
        {{0, 6, 0, 1}, 8, 0, 0, 0, 1, 8},
        {{0, 10, 0, 2}, 12, 0, BAFIROLEN_REFUSED_KEY_SEEN_BEFORE, 0, 0, 0},
        {{0, 8, 0, 1, 0, 2, 0xC0, 0x80}, 10, 0, BAFIROLEN_REFUSED_KEY_NOT_UTF8, 0, 0, 0},
        {{0, 4, 0, 1, 0, 5}, 5, 0, BAFIROLEN_REFUSED_SHORTAGE, 6, 0, 0},
        {{0, 4, 0, 1, 0, 5}, 6, 0, BAFIROLEN_REFUSED_PAST_SECTION, 0, 0, 0},
        {{0, 4, 0, 1, 0, 5, 0x61, 0x62, 0x63, 0x64, 0x65}, 13, 0, BAFIROLEN_REFUSED_PAST_SECTION, 0, 0, 0},
        {{0, 3, 0, 1}, 5, 0, BAFIROLEN_REFUSED_PAST_SECTION, 0, 0, 0},
        {{0, 5, 0, 1}, 8, 0, BAFIROLEN_REFUSED_PAST_SECTION, 0, 0, 0},
        {{0, 6, 0, 1, 0, 0, 0, 1}, 9, 1, BAFIROLEN_REFUSED_PAST_SECTION, 0, 0, 0},
        {{0, 6, 0, 2}, 8, 0, BAFIROLEN_REFUSED_PAST_SECTION, 0, 0, 0},
        {{0, 7, 0, 1}, 9, 0, BAFIROLEN_REFUSED_CONTEXT_LENGTH, 0, 0, 0},
    };
    static const uint32_t empty_pair[4] = {6, 0, 8, 0};
    BafirolenSection s;
    size_t i;
    for (i = 0; i < COUNT(rows); i++) {
        fresh();
        s = bafirolen_read_aad_section(rows[i].bytes, rows[i].len, 0, rows[i].mode, pairs, 4);
        section_is("a section", s, rows[i].number, rows[i].position, rows[i].count, rows[i].tail);
        table_is("a section's table", pairs, empty_pair, rows[i].count * 4u);
    }
}

/* the key section of the first n bytes of H */
static void keys_as(const char *what, size_t n, uint32_t has_max, uint64_t max, uint64_t number, uint64_t position)
{
    BafirolenSection s;
    fresh();
    s = bafirolen_read_encrypted_data_keys_section(H, n, 34, has_max, max, keys, NUMBERS);
    section_is(what, s, number, position, number == 0 ? 1 : 0, number == 0 ? 48 : 0);
    table_is(what, keys, H_keys, number == 0 ? 6 : 0);
}

static void key_sections(void)
{
    keys_as("the key section", 58, BAFIROLEN_NO_MAX, 0, 0, 0);
    keys_as("a maximum of 0", 58, BAFIROLEN_AT_MOST, 0, BAFIROLEN_REFUSED_TOO_MANY_KEYS, 0);
    keys_as("a key section cut", 40, BAFIROLEN_AT_MOST, UINT64_MAX, BAFIROLEN_REFUSED_SHORTAGE, 42);
}

static void find(void)
{
    static const struct {
        const char *key;
        uint64_t number, start, len;
    } rows[] = {{"lang", 0, 32, 2},
                {"lan", BAFIROLEN_REFUSED_NOT_FOUND, 0, 0},
                {"langu", BAFIROLEN_REFUSED_NOT_FOUND, 0, 0},
                {"", BAFIROLEN_REFUSED_NOT_FOUND, 0, 0}};
    static const uint8_t past[6] = {0, 4, 0, 1, 0, 5};
    BafirolenPlace p;
    size_t i;
    for (i = 0; i < COUNT(rows); i++) {
        p = bafirolen_find_value(H, 58, 20, (const uint8_t *)rows[i].key, strlen(rows[i].key));
        same(rows[i].key, p.number, rows[i].number);
        same(rows[i].key, p.position, 0);
        same(rows[i].key, p.start, rows[i].start);
        same(rows[i].key, p.len, rows[i].len);
    }
    for (i = 0; i < COUNT(rows); i++) {
        fresh();
        written_at(rows[i].key, bafirolen_copy_value(H, 58, 20, (const uint8_t *)rows[i].key, strlen(rows[i].key), out, BYTES),
                   rows[i].number, 0, rows[i].len);
        output_is(rows[i].key, H + rows[i].start, rows[i].len);
    }
    fresh();
    written_is("a value into 1 byte", bafirolen_copy_value(H, 58, 20, (const uint8_t *)"lang", 4, out, 1),
               BAFIROLEN_REFUSED_OUTPUT_TOO_SHORT, 0);
    output_is("a value into 1 byte", fresh_bytes, 0);
    written_at("a copy of a section cut", bafirolen_copy_value(H, 30, 20, H, 0, out, BYTES), BAFIROLEN_REFUSED_SHORTAGE, 34, 0);
    output_is("a copy of a section cut", fresh_bytes, 0);
    written_is("a copy of a key past its section", bafirolen_copy_value(past, sizeof past, 0, past, 0, out, BYTES),
               BAFIROLEN_REFUSED_PAST_SECTION, 0);
    output_is("a copy of a key past its section", fresh_bytes, 0);
    p = bafirolen_find_value(past, sizeof past, 0, past, 0);
    same("a key past its section", p.number, BAFIROLEN_REFUSED_PAST_SECTION);
    same("a key past its section", p.position, 0);
    p = bafirolen_find_value(H, 30, 20, H, 0);
    same("a section cut", p.number, BAFIROLEN_REFUSED_SHORTAGE);
    same("a section cut", p.position, 34);
    same("a section cut", p.start, 0);
    same("a section cut", p.len, 0);
}

/* H whose section's length is set: up to 11 a part of its one pair would end past it, and from 13 on the pair ends before it; a
 * message that ends where the section does is no shorter for that, but where the pair fills it, which leaves the key count out */
static void section_lengths(void)
{
    static const uint64_t q[6] = {0, 0, 0, 0, NUMBERS, NUMBERS};
    uint8_t m[58];
    uint8_t length;
    memcpy(m, H, sizeof m);
    for (length = 1; length <= 14; length++) {
        const uint64_t number = length == 12 ? 0
                              : length == 2  ? BAFIROLEN_REFUSED_COUNT_IN_EMPTY_CONTEXT
                              : length < 12  ? BAFIROLEN_REFUSED_PAST_SECTION
                                             : BAFIROLEN_REFUSED_CONTEXT_LENGTH;
        m[21] = length;
        read_as("a section of another length", m, 58, 0, q, number, 0);
        same("a section of another length", bafirolen_header_number(m, 58, 0), number);
        same("a section of another length", bafirolen_header_position(m, 58, 0), length == 12 ? 58 : 0);
        if (length != 12) {
            read_as("a section of another length, nothing behind it", m, 22u + length, 0, q, number, 0);
        }
        read_as("a section of another length, cut", m, 21u + length, 0, q, BAFIROLEN_REFUSED_SHORTAGE, 22u + length);
    }
}

/* numbers for which, mode and has_max that name nothing: some of them have the lowest 8 or 16 bits of one that does */
static const uint32_t unknown[] = {3, 255, 256, 257, 258, 0x10000, 0x10001, 0x10002, 0x80000000u, 0xFFFFFFFFu};

/* a header of either version that breaks refusal 20 alone is refused by the reader of either version, and by no other */
static void unknown_versions(void)
{
    static const struct {
        size_t which, content, frame, len;
        uint8_t content_type, frame_length;
    } rows[] = {{1, 48, 56, 58, 2, 0}, {1, 48, 56, 58, 1, 16}, {2, 51, 54, 88, 2, 0}, {2, 51, 54, 88, 1, 16}};
    uint8_t m[88];
    size_t i, k;
    for (i = 0; i < COUNT(rows); i++) {
        uint64_t q[6] = {0, 0, 0, 0, NUMBERS, NUMBERS};
        const size_t n = rows[i].which == 1 ? append(m, 0, H, sizeof H) : bare_header(m, 2, BAFIROLEN_TODAY);
        same("the length of a header that breaks 20", n, rows[i].len);
        m[rows[i].content] = rows[i].content_type;
        m[rows[i].frame] = rows[i].frame_length;
        read_as("20, either version", m, rows[i].len, 0, q, BAFIROLEN_REFUSED_FRAME_LENGTH, 0);
        for (k = 0; k < COUNT(unknown); k++) {
            q[0] = unknown[k];
            read_as("20, a number that names no version", m, rows[i].len, 0, q, BAFIROLEN_REFUSED_FRAME_LENGTH, 0);
        }
        q[0] = rows[i].which;
        read_as("20, its version", m, rows[i].len, 0, q, BAFIROLEN_ACCEPTED, 0);
        q[0] = 3 - rows[i].which;
        read_as("20, the other version", m, rows[i].len, 0, q, BAFIROLEN_REFUSED_OTHER_VERSION, 0);
    }
}

/* an empty context in its old form is accepted by the tolerant reader alone, in a section and in a body */
static void unknown_modes(void)
{
    uint8_t m[48];
    uint64_t q[6] = {0, 0, 0, 0, NUMBERS, NUMBERS};
    BafirolenSection s;
    size_t k;
    memcpy(m, H, 20);
    memcpy(m + 20, "\0\2\0\0", 4);
    memcpy(m + 24, H + 34, 24);
    s = bafirolen_read_aad_section(m, 48, 20, BAFIROLEN_TOLERANT, pairs, NUMBERS);
    section_is("the old form, tolerant", s, 0, 0, 0, 24);
    read_as("a body of the old form, tolerant", m, 48, 0, q, BAFIROLEN_ACCEPTED, 0);
    q[1] = BAFIROLEN_STRICT;
    read_as("a body of the old form, strict", m, 48, 0, q, BAFIROLEN_REFUSED_OLD_EMPTY_CONTEXT, 0);
    for (k = 0; k < COUNT(unknown); k++) {
        fresh();
        s = bafirolen_read_aad_section(m, 48, 20, unknown[k], pairs, NUMBERS);
        section_is("the old form, a number that names no mode", s, BAFIROLEN_REFUSED_OLD_EMPTY_CONTEXT, 0, 0, 0);
        table_is("the old form, a number that names no mode", pairs, fresh_numbers, 0);
        q[1] = unknown[k];
        read_as("a body, a number that names no mode", m, 48, 0, q, BAFIROLEN_REFUSED_OLD_EMPTY_CONTEXT, 0);
        read_as("H, a number that names no mode", H, 58, 0, q, BAFIROLEN_ACCEPTED, 0);
    }
}

/* the maximum is looked at unless has_max is 0 */
static void unknown_maxima(void)
{
    uint64_t q[6] = {0, 0, 0, 0, NUMBERS, NUMBERS};
    size_t k;
    read_as("no maximum", H, 58, 0, q, BAFIROLEN_ACCEPTED, 0);
    for (k = 0; k < COUNT(unknown); k++) {
        keys_as("at most 0 keys", 58, unknown[k], 0, BAFIROLEN_REFUSED_TOO_MANY_KEYS, 0);
        keys_as("at most 1 key", 58, unknown[k], 1, BAFIROLEN_ACCEPTED, 0);
        q[2] = unknown[k];
        q[3] = 0;
        read_as("a body of at most 0 keys", H, 58, 0, q, BAFIROLEN_REFUSED_TOO_MANY_KEYS, 0);
        q[3] = 1;
        read_as("a body of at most 1 key", H, 58, 0, q, BAFIROLEN_ACCEPTED, 0);
    }
}

int main(void)
{
    same("the version of the declarations", bafirolen_version(), BAFIROLEN_VERSION);
    read_bodies();
    numbers_and_positions();
    sections();
    key_sections();
    find();
    section_lengths();
    unknown_versions();
    unknown_modes();
    unknown_maxima();
    return compared();
}
