/*
 * A host in C: calls every exported operation that writes but two, and the reader of authentication records beside its writer; as
 * check_readers.c does for what reads. A body is measured before it is written. check_only_authenticated.c has the one that reads a
 * message and writes, check_frames_written.c the writer of frames, check_forms.c bodies of both forms, and check_lengths.c more of
 * how long they are.
 */
#include "compare.h"

static void write_sections(void)
{
    static const uint32_t outside[4] = {26, 4, 57, 2};
    BafirolenWritten w;
    fresh();
    w = bafirolen_write_aad_section(H, 58, H_pairs, 4, out, BYTES);
    written_is("the context section", w, 0, 14);
    output_is("the context section", H + 20, 14);
    fresh();
    w = bafirolen_write_aad_section(H, 58, H_pairs, 4, out, 13);
    written_is("an output of 13", w, BAFIROLEN_REFUSED_OUTPUT_TOO_SHORT, 0);
    output_is("an output of 13", fresh_bytes, 0);
    w = bafirolen_write_aad_section(H, 58, H_pairs, 3, out, BYTES);
    written_is("a table of 3", w, BAFIROLEN_REFUSED_TABLE_OR_PLACE, 0);
    output_is("a table of 3", fresh_bytes, 0);
    w = bafirolen_write_aad_section(H, 58, outside, 4, out, BYTES);
    written_is("a place outside", w, BAFIROLEN_REFUSED_TABLE_OR_PLACE, 0);
    output_is("a place outside", fresh_bytes, 0);
    w = bafirolen_write_encrypted_data_keys_section(H, 58, H_keys, 6, out, BYTES);
    written_is("the key section", w, 0, 14);
    output_is("the key section", H + 34, 14);
    fresh();
    w = bafirolen_write_encrypted_data_keys_section(H, 58, H_keys, 0, out, BYTES);
    written_is("a key section without a key", w, BAFIROLEN_REFUSED_NO_ENCRYPTED_DATA_KEY, 0);
    output_is("a key section without a key", fresh_bytes, 0);
}

/* the numbers with one of them changed: what is refused, or 0; the length knows nothing of an output */
static void write_with(const char *what, BafirolenNumbers n, size_t id, size_t room, uint64_t number)
{
    const int accepted = number == BAFIROLEN_ACCEPTED || number == BAFIROLEN_REFUSED_OUTPUT_TOO_SHORT;
    BafirolenWritten w;
    w = bafirolen_header_body_len(n, H + 4, id, H, 0, H, 58, H_pairs, 4, H_keys, 6);
    written_is(what, w, accepted ? BAFIROLEN_ACCEPTED : number, accepted ? 58 : 0);
    fresh();
    w = bafirolen_write_header_body(n, H + 4, id, H, 0, H, 58, H_pairs, 4, H_keys, 6, out, room);
    written_is(what, w, number, number == 0 ? 58 : 0);
    output_is(what, number == 0 ? out : fresh_bytes, number == 0 ? 58 : 0);
}

static void write_bodies(void)
{
    static const BafirolenNumbers n = {1, 0x80, 0x0178, 2, 12, 4096, 0};
    static const BafirolenNumbers wide = {1, 0x80, 0x0378, 2, 12, 0xFEDCBA98u, 0};
    /* H's numbers, with one of them wrong; some of those agree with the right one in their lowest bytes */
    static const struct {
        const char *what;
        BafirolenNumbers numbers;
        uint64_t number;
    } refusals[] = {{"version", {3, 0x80, 0x0178, 2, 12, 4096, 0}, BAFIROLEN_REFUSED_UNKNOWN_VERSION},
                    {"version 257", {257, 0x80, 0x0178, 2, 12, 4096, 0}, BAFIROLEN_REFUSED_UNKNOWN_VERSION},
                    {"type", {1, 0x81, 0x0178, 2, 12, 4096, 0}, BAFIROLEN_REFUSED_MESSAGE_TYPE},
                    {"suite", {1, 0x80, 0x7801, 2, 12, 4096, 0}, BAFIROLEN_REFUSED_UNKNOWN_SUITE},
                    {"suite 10178", {1, 0x80, 0x10178, 2, 12, 4096, 0}, BAFIROLEN_REFUSED_UNKNOWN_SUITE},
                    {"suite of version 2", {1, 0x80, 0x0478, 2, 12, 4096, 0}, BAFIROLEN_REFUSED_SUITE_OF_OTHER_VERSION},
                    {"content type", {1, 0x80, 0x0178, 3, 12, 4096, 0}, BAFIROLEN_REFUSED_CONTENT_TYPE},
                    {"IV length", {1, 0x80, 0x0178, 2, 13, 4096, 0}, BAFIROLEN_REFUSED_IV_LENGTH},
                    {"IV length 10C", {1, 0x80, 0x0178, 2, 0x10C, 4096, 0}, BAFIROLEN_REFUSED_IV_LENGTH},
                    {"frame length", {1, 0x80, 0x0178, 2, 12, 0, 0}, BAFIROLEN_REFUSED_FRAME_LENGTH}};
    size_t i;
    write_with("H written", n, 16, 58, 0);
    output_is("H written", H, 58);
    write_with("an output of 57", n, 16, 57, BAFIROLEN_REFUSED_OUTPUT_TOO_SHORT);
    write_with("an ID of 15", n, 15, BYTES, BAFIROLEN_REFUSED_ID_LENGTH);
    for (i = 0; i < COUNT(refusals); i++) {
        write_with(refusals[i].what, refusals[i].numbers, 16, BYTES, refusals[i].number);
    }
    write_with("a wide frame length", wide, 16, BYTES, 0);
    same_bytes("a wide frame length", out + 54, "\xFE\xDC\xBA\x98", 4);
    same_bytes("another suite", out + 2, "\x03\x78", 2);
}

/* version 2 has no type and no IV length, and an ID and suite data of 32 bytes */
static void refuse_version_2(void)
{
    static const struct {
        const char *what;
        BafirolenNumbers numbers;
        size_t id, data;
        uint64_t number;
    } rows[] = {{"a type in version 2", {2, 0x80, 0x0578, 1, 0, 0, 0}, 32, 32, BAFIROLEN_REFUSED_MESSAGE_TYPE},
                {"a type of 256 in version 2", {2, 0x100, 0x0578, 1, 0, 0, 0}, 32, 32, BAFIROLEN_REFUSED_MESSAGE_TYPE},
                {"an ID of 16 in version 2", {2, 0, 0x0578, 1, 0, 0, 0}, 16, 32, BAFIROLEN_REFUSED_ID_LENGTH},
                {"an IV length in version 2", {2, 0, 0x0578, 1, 12, 0, 0}, 32, 32, BAFIROLEN_REFUSED_IV_LENGTH},
                {"an IV length of 256 in version 2", {2, 0, 0x0578, 1, 0x100, 0, 0}, 32, 32, BAFIROLEN_REFUSED_IV_LENGTH},
                {"suite data of 31", {2, 0, 0x0578, 1, 0, 0, 0}, 32, 31, BAFIROLEN_REFUSED_SUITE_DATA_LENGTH},
                {"no suite data", {2, 0, 0x0578, 1, 0, 0, 0}, 32, 0, BAFIROLEN_REFUSED_SUITE_DATA_LENGTH},
                {"a frame length, non-framed", {2, 0, 0x0578, 1, 0, 1, 0}, 32, 32, BAFIROLEN_REFUSED_FRAME_LENGTH}};
    BafirolenWritten w;
    size_t i;
    for (i = 0; i < COUNT(rows); i++) {
        w = bafirolen_header_body_len(rows[i].numbers, H, rows[i].id, H, rows[i].data, H, 58, H_pairs, 4, H_keys, 6);
        written_is(rows[i].what, w, rows[i].number, 0);
        fresh();
        w = bafirolen_write_header_body(rows[i].numbers, H, rows[i].id, H, rows[i].data, H, 58, H_pairs, 4, H_keys, 6, out,
                                        BYTES);
        written_is(rows[i].what, w, rows[i].number, 0);
        output_is(rows[i].what, fresh_bytes, 0);
    }
}

/* an ID and suite data of 32 bytes; and without a key */
static void write_version_2(void)
{
    static const BafirolenNumbers n = {2, 0, 0x0578, 1, 0, 0, 0};
    static const uint64_t want[BODY_FIELDS] = {0, 0, 2, 0, 0x0578, 1, 0, 0, BAFIROLEN_TODAY, 3, 32, 1, 1, 68, 32, 100};
    static const uint32_t V2_pairs[4] = {41, 4, 47, 2}, V2_keys[6] = {53, 2, 57, 1, 60, 3};
    BafirolenWritten w;
    BafirolenBody b;
    w = bafirolen_header_body_len(n, H, 32, H + 20, 32, H, 58, H_pairs, 4, H_keys, 6);
    written_is("the length of version 2", w, 0, 100);
    fresh();
    w = bafirolen_write_header_body(n, H, 32, H + 20, 32, H, 58, H_pairs, 4, H_keys, 6, out, BYTES);
    written_is("version 2", w, 0, 100);
    same_bytes("version 2", out, "\x02\x05\x78", 3);
    same_bytes("version 2", out + 3, H, 32);
    same_bytes("version 2", out + 35, H + 20, 28);
    same_bytes("version 2", out + 63, "\1\0\0\0\0", 5);
    same_bytes("version 2", out + 68, H + 20, 32);
    same_bytes("version 2", out + 100, fresh_bytes, BYTES - 100);
    b = bafirolen_read_header_body(out, 100, 0, BAFIROLEN_V2_ONLY, BAFIROLEN_STRICT, BAFIROLEN_AT_MOST, 1, pairs, 4, keys, 6);
    body_is("version 2", b, want);
    table_is("version 2", pairs, V2_pairs, 4);
    table_is("version 2", keys, V2_keys, 6);
    w = bafirolen_header_body_len(n, H, 32, H + 20, 32, H, 58, H_pairs, 4, H_keys, 0);
    written_is("the length of version 2 without a key", w, BAFIROLEN_REFUSED_NO_ENCRYPTED_DATA_KEY, 0);
    fresh();
    w = bafirolen_write_header_body(n, H, 32, H + 20, 32, H, 58, H_pairs, 4, H_keys, 0, out, BYTES);
    written_is("version 2 without a key", w, BAFIROLEN_REFUSED_NO_ENCRYPTED_DATA_KEY, 0);
    output_is("version 2 without a key", fresh_bytes, 0);
}

static void numbers_made(void)
{
    static const BafirolenNumbers one = {1, 0x80, 0x0178, 2, 12, 4096, 0}, two = {2, 0, 0x0578, 1, 0, 7, 0};
    const BafirolenNumbers made_one = bafirolen_v1_numbers(0x0178, BAFIROLEN_FRAMED, 4096);
    const BafirolenNumbers made_two = bafirolen_v2_numbers(0x0578, BAFIROLEN_NON_FRAMED, 7);
    same_bytes("numbers of version 1", &made_one, &one, sizeof one);
    same_bytes("numbers of version 2", &made_two, &two, sizeof two);
}

static const uint8_t iv[12] = {1, 2, 3, 4, 5, 6, 7, 8, 9, 10, 11, 12};
static const uint8_t tag[16] = {201, 202, 203, 204, 205, 206, 207, 208, 209, 210, 211, 212, 213, 214, 215, 216};

/* a record that was read, or none where it was refused */
static void record_is(const char *what, BafirolenAuth a, const uint64_t want[3], const uint8_t *iv, const uint8_t *tag)
{
    same(what, a.number, want[0]);
    same(what, a.position, want[1]);
    same(what, a.tail, want[2]);
    same_bytes(what, a.iv, iv, 12);
    same_bytes(what, a.tag, tag, 16);
}

static void write_records(void)
{
    static const struct {
        uint32_t suite;
        size_t iv, tag, room;
        uint64_t number;
    } refusals[] = {{0, 0, 0, 0, BAFIROLEN_REFUSED_UNKNOWN_SUITE},
                    {0x10178, 12, 16, 28, BAFIROLEN_REFUSED_UNKNOWN_SUITE},
                    {0x0178, 11, 0, 0, BAFIROLEN_REFUSED_IV_LENGTH},
                    {0x0478, 12, 15, 0, BAFIROLEN_REFUSED_TAG_LENGTH},
                    {0x0178, 12, 16, 27, BAFIROLEN_REFUSED_OUTPUT_TOO_SHORT}};
    BafirolenWritten w;
    size_t i;
    fresh();
    for (i = 0; i < COUNT(refusals); i++) {
        w = bafirolen_write_header_auth_tag(refusals[i].suite, iv, refusals[i].iv, tag, refusals[i].tag, out, refusals[i].room);
        written_is("a record refused", w, refusals[i].number, 0);
        output_is("a record refused", fresh_bytes, 0);
    }
    w = bafirolen_write_header_auth_tag(0x0178, iv, 12, tag, 16, out + 3, 28);
    written_is("a record of version 1", w, 0, 28);
    same_bytes("before it", out, fresh_bytes, 3);
    same_bytes("its IV", out + 3, iv, 12);
    same_bytes("its tag", out + 15, tag, 16);
    same_bytes("behind it", out + 31, fresh_bytes + 31, BYTES - 31);
    fresh();
    w = bafirolen_write_header_auth_tag(0x0578, iv, 12, tag, 16, out, BYTES);
    written_is("a record of version 2", w, 0, 16);
    output_is("a record of version 2", tag, 16);
}

static void read_records(void)
{
    static const uint64_t accepted[3] = {0, 0, 31}, of_2[3] = {0, 0, 19}, of_2_first[3] = {0, 0, 16};
    static const uint64_t cut[3] = {BAFIROLEN_REFUSED_SHORTAGE, 31, 0}, cut_first[3] = {BAFIROLEN_REFUSED_SHORTAGE, 28, 0};
    static const uint64_t unknown[3] = {BAFIROLEN_REFUSED_UNKNOWN_SUITE, 0, 0};
    static const uint8_t none[16];
    uint8_t m[31];
    memset(m, KEPT, 3);
    memcpy(m + 3, iv, 12);
    memcpy(m + 15, tag, 16);
    record_is("a record of version 1", bafirolen_read_header_auth_tag(m, 31, 3, 0x0178), accepted, iv, tag);
    memcpy(m + 3, tag, 16);
    record_is("a record of version 2", bafirolen_read_header_auth_tag(m, 31, 3, 0x0578), of_2, none, tag);
    record_is("a record of version 2 at 0", bafirolen_read_header_auth_tag(m + 3, 28, 0, 0x0578), of_2_first, none, tag);
    record_is("a record cut", bafirolen_read_header_auth_tag(m, 30, 3, 0x0014), cut, none, none);
    record_is("a record at 0 cut", bafirolen_read_header_auth_tag(m, 27, 0, 0x0014), cut_first, none, none);
    record_is("an unknown suite", bafirolen_read_header_auth_tag(m, 31, 3, 0x1400), unknown, none, none);
    record_is("a suite of 17 bits", bafirolen_read_header_auth_tag(m, 31, 3, 0x10578), unknown, none, none);
}

static void listings(void)
{
    static const char of_a_cut[] = "refused\t2\t58\n";
    const size_t n = sizeof H_listing - 1;
    BafirolenWritten w;
    fresh();
    w = bafirolen_write_listing(H, 58, out, n);
    written_is("H's listing", w, 0, n);
    output_is("H's listing", (const uint8_t *)H_listing, n);
    fresh();
    w = bafirolen_write_listing(H, 58, out, n - 1);
    written_is("no room for H's listing", w, BAFIROLEN_REFUSED_OUTPUT_TOO_SHORT, 0);
    output_is("no room for H's listing", fresh_bytes, 0);
    w = bafirolen_write_listing(H, 57, out, BYTES);
    written_is("the listing of a cut", w, 0, sizeof of_a_cut - 1);
    output_is("the listing of a cut", (const uint8_t *)of_a_cut, sizeof of_a_cut - 1);
}

int main(void)
{
    write_sections();
    write_bodies();
    write_version_2();
    refuse_version_2();
    numbers_made();
    write_records();
    read_records();
    listings();
    return compared();
}
