/*
 * Null pointers with length 0: every export with each set of its lent parts left empty, once by null and once by a pointer behind
 * an allocation, where a memory checker sees a read or a store. What is answered, and every table and output, is the same; and
 * some of it is compared with what documents 01 and 02 say. Writes `compared N cases`; a difference is written to standard error,
 * and the exit status is 1.
 *
 *     tools/archives
 *     gcc -std=c99 -O2 -Wall -Wextra -Iinclude hosts/c/null.c target/staticlib/libbafirolen_c.a -o target/null
 *     valgrind --error-exitcode=1 target/null
 */
#include "null_calls.h"

#include <stdlib.h>

/* the call with those parts empty by that pointer: its answer, and what it was lent afterwards */
static void ask(void (*call)(void), unsigned parts, void *pointer)
{
    empty = parts;
    empty_part = pointer;
    fresh();
    memset(&answer, 0, sizeof answer);
    call();
    memcpy(answer.pairs, pairs, sizeof pairs);
    memcpy(answer.keys, keys, sizeof keys);
    memcpy(answer.out, out, sizeof out);
}

/* every set of empty parts, the whole one included */
static void by_null_and_by_another(const struct export *e, void *behind)
{
    unsigned parts;
    struct answer other;
    for (parts = 0; parts < 1u << e->parts; parts++) {
        ask(e->call, parts, behind);
        other = answer;
        ask(e->call, parts, NULL);
        same_bytes(e->name, &answer.record, &other.record, sizeof other.record);
        same_bytes(e->name, answer.pairs, other.pairs, sizeof other.pairs);
        same_bytes(e->name, answer.keys, other.keys, sizeof other.keys);
        same_bytes(e->name, answer.out, other.out, sizeof other.out);
    }
}

/* what a host sees where null is what it has: an empty message, no table, an empty key, no room */
static void readers(void)
{
    static const uint64_t cut[BODY_FIELDS] = {BAFIROLEN_REFUSED_SHORTAGE, 1};
    static const uint64_t bare[BODY_FIELDS] = {0, 0, 1, 0x80, 0x0178, 2, 12, 4096, BAFIROLEN_TODAY, 4, 16, 0, 1, 0, 0, 40};
    static const uint64_t few_pairs[BODY_FIELDS] = {BAFIROLEN_REFUSED_PAIR_TABLE_TOO_SHORT};
    static const uint64_t few_keys[BODY_FIELDS] = {BAFIROLEN_REFUSED_KEY_TABLE_TOO_SHORT};
    static const uint64_t no_key[BODY_FIELDS] = {BAFIROLEN_REFUSED_NO_ENCRYPTED_DATA_KEY};
    BafirolenSection s;
    BafirolenPlace p;
    fresh();
    body_is("no message", bafirolen_read_header_body(NULL, 0, 0, 0, 0, 0, 0, NULL, 0, NULL, 0), cut);
    body_is("no tables", bafirolen_read_header_body(BARE, 40, 0, 0, 0, 0, 0, NULL, 0, NULL, 0), few_keys);
    body_is("no tables, no key", bafirolen_read_header_body(KEYLESS, 34, 0, 0, 0, 0, 0, NULL, 0, NULL, 0), no_key);
    body_is("no pair table", bafirolen_read_header_body(H, 58, 0, 0, 0, 0, 0, NULL, 0, keys, 6), few_pairs);
    body_is("no key table", bafirolen_read_header_body(H, 58, 0, 0, 0, 0, 0, pairs, 4, NULL, 0), few_keys);
    s = bafirolen_read_aad_section(BARE, 40, 20, BAFIROLEN_STRICT, NULL, 0);
    section_is("no pair table, no pair", s, 0, 0, 0, 22);
    s = bafirolen_read_encrypted_data_keys_section(BARE, 40, 22, BAFIROLEN_NO_MAX, 0, NULL, 0);
    section_is("no key table, a key", s, BAFIROLEN_REFUSED_KEY_TABLE_TOO_SHORT, 0, 0, 0);
    s = bafirolen_read_encrypted_data_keys_section(KEYLESS, 34, 22, BAFIROLEN_NO_MAX, 0, NULL, 0);
    section_is("no key table, no key", s, BAFIROLEN_REFUSED_NO_ENCRYPTED_DATA_KEY, 0, 0, 0);
    s = bafirolen_read_frames(NULL, 0, 0, 3, NULL, 0);
    section_is("frames of no message", s, BAFIROLEN_REFUSED_SHORTAGE, 4, 0, 0);
    s = bafirolen_read_frames(RUN, sizeof RUN, 0, 3, NULL, 0);
    section_is("frames, no table", s, BAFIROLEN_REFUSED_KEY_TABLE_TOO_SHORT, 0, 0, 0);
    p = bafirolen_find_value(HOLLOW, 88, 35, NULL, 0);
    same("the empty key", p.number == 0 && p.position == 0 && p.len == 0, 1);
    same("the empty key", p.start, 43);
    same("a record of no message", bafirolen_read_header_auth_tag(NULL, 0, 0, 0x0178).position, 12);
    same("number of no message", bafirolen_header_number(NULL, 0, 0), BAFIROLEN_REFUSED_SHORTAGE);
    same("position of no message", bafirolen_header_position(NULL, 0, 0), 1);
    table_is("no table", pairs, fresh_numbers, 0);
    table_is("no table", keys, fresh_numbers, 0);
    body_is("no pair table, no pair", bafirolen_read_header_body(BARE, 40, 0, 0, 0, 0, 0, NULL, 0, keys, 6), bare);
    table_is("its key", keys, BARE_keys, 6);
}

/* a key whose parts have no byte, so that it lies in no text */
static const uint32_t hollow_key[6];

static void writers(void)
{
    written_is("an empty value", bafirolen_copy_value(HOLLOW, 88, 35, NULL, 0, NULL, 0), 0, 0);
    written_is("no pairs", bafirolen_write_aad_section(NULL, 0, NULL, 0, NULL, 0), BAFIROLEN_REFUSED_OUTPUT_TOO_SHORT, 0);
    written_is("no keys", bafirolen_write_encrypted_data_keys_section(NULL, 0, NULL, 0, NULL, 0),
               BAFIROLEN_REFUSED_NO_ENCRYPTED_DATA_KEY, 0);
    written_is("no room for a key", bafirolen_write_encrypted_data_keys_section(NULL, 0, hollow_key, 6, NULL, 0),
               BAFIROLEN_REFUSED_OUTPUT_TOO_SHORT, 0);
    written_is("no IV", bafirolen_write_header_auth_tag(0x0178, NULL, 0, NULL, 0, NULL, 0), BAFIROLEN_REFUSED_IV_LENGTH, 0);
    written_is("no tag", bafirolen_write_header_auth_tag(0x0178, H, 12, NULL, 0, NULL, 0), BAFIROLEN_REFUSED_TAG_LENGTH, 0);
    written_is("no room for a record", bafirolen_write_header_auth_tag(0x0178, H, 12, H, 16, NULL, 0),
               BAFIROLEN_REFUSED_OUTPUT_TOO_SHORT, 0);
    written_is("no room for a listing", bafirolen_write_listing(NULL, 0, NULL, 0), BAFIROLEN_REFUSED_OUTPUT_TOO_SHORT, 0);
    fresh();
    written_is("no pairs", bafirolen_write_aad_section(NULL, 0, NULL, 0, out, BYTES), 0, 2);
    output_is("no pairs", BARE + 20, 2);
    fresh();
    written_is("no keys", bafirolen_write_encrypted_data_keys_section(NULL, 0, NULL, 0, out, BYTES),
               BAFIROLEN_REFUSED_NO_ENCRYPTED_DATA_KEY, 0);
    output_is("no keys", fresh_bytes, 0);
    written_is("a key in no text", bafirolen_write_encrypted_data_keys_section(NULL, 0, hollow_key, 6, out, BYTES), 0, 8);
    output_is("a key in no text", BARE + 22, 8);
    fresh();
    written_is("a listing of no message", bafirolen_write_listing(NULL, 0, out, BYTES), 0, 12);
    output_is("a listing of no message", (const uint8_t *)"refused\t2\t1\n", 12);
}

/* a header is written where all but its ID and its key is null, and refused where its key is as well, in either form */
static void bare_headers(uint32_t form, const uint8_t *image, size_t length)
{
    BafirolenNumbers n = headers[1].numbers;
    BafirolenWritten w;
    n.form = form;
    w = bafirolen_header_body_len(n, image + 4, 16, NULL, 0, NULL, 0, NULL, 0, NULL, 0);
    written_is("the length of a header without a key", w, BAFIROLEN_REFUSED_NO_ENCRYPTED_DATA_KEY, 0);
    fresh();
    w = bafirolen_write_header_body(n, image + 4, 16, NULL, 0, NULL, 0, NULL, 0, NULL, 0, out, BYTES);
    written_is("a header without a key", w, BAFIROLEN_REFUSED_NO_ENCRYPTED_DATA_KEY, 0);
    output_is("a header without a key", fresh_bytes, 0);
    w = bafirolen_header_body_len(n, image + 4, 16, NULL, 0, NULL, 0, NULL, 0, hollow_key, 6);
    written_is("the length of a bare header", w, 0, length);
    w = bafirolen_write_header_body(n, image + 4, 16, NULL, 0, NULL, 0, NULL, 0, hollow_key, 6, out, BYTES);
    written_is("a bare header", w, 0, length);
    output_is("a bare header", image, length);
    w = bafirolen_header_body_len(n, NULL, 0, NULL, 0, NULL, 0, NULL, 0, NULL, 0);
    written_is("the length without an ID", w, BAFIROLEN_REFUSED_ID_LENGTH, 0);
}

/* under a policy that forbids it: a header whose ID is still to come, and one that has nothing but numbers */
static void forbidden(void)
{
    static const uint64_t want[BODY_FIELDS] = {BAFIROLEN_REFUSED_FORBIDDEN_BY_POLICY};
    const uint32_t policy = BAFIROLEN_REQUIRE_ENCRYPT_REQUIRE_DECRYPT;
    const BafirolenNumbers n = headers[1].numbers;
    BafirolenWritten w;
    body_is("no tables", bafirolen_read_header_body_under_policy(H, 4, 0, 0, 0, 0, 0, policy, NULL, 0, NULL, 0), want);
    w = bafirolen_header_body_len_under_policy(n, policy, NULL, 0, NULL, 0, NULL, 0, NULL, 0, NULL, 0);
    written_is("the length of nothing", w, BAFIROLEN_REFUSED_FORBIDDEN_BY_POLICY, 0);
    w = bafirolen_write_header_body_under_policy(n, policy, NULL, 0, NULL, 0, NULL, 0, NULL, 0, NULL, 0, NULL, 0);
    written_is("nothing", w, BAFIROLEN_REFUSED_FORBIDDEN_BY_POLICY, 0);
}

/* frames: no table, and places of no bytes in no text */
static void frames(void)
{
    static const uint32_t nothing[6], outside[6] = {0, 12, 0, 0, 0, 16};
    written_is("no frame", bafirolen_frames_len(3, NULL, 0, NULL, 0), BAFIROLEN_REFUSED_NO_FRAME, 0);
    written_is("no frame", bafirolen_write_frames(3, NULL, 0, NULL, 0, NULL, 0), BAFIROLEN_REFUSED_NO_FRAME, 0);
    written_is("no frame length", bafirolen_write_frames(0, NULL, 0, NULL, 0, NULL, 0), BAFIROLEN_REFUSED_FRAME_LENGTH, 0);
    written_is("no IV of a frame", bafirolen_write_frames(3, NULL, 0, nothing, 6, NULL, 0), BAFIROLEN_REFUSED_IV_LENGTH, 0);
    written_is("an IV in no text", bafirolen_frames_len(3, NULL, 0, outside, 6), BAFIROLEN_REFUSED_TABLE_OR_PLACE, 0);
    written_is("the length of frames", bafirolen_frames_len(3, RUN, sizeof RUN, RUN_table, 12), 0, sizeof RUN);
    written_is("no room for frames", bafirolen_write_frames(3, RUN, sizeof RUN, RUN_table, 12, NULL, 0),
               BAFIROLEN_REFUSED_OUTPUT_TOO_SHORT, 0);
    fresh();
    written_is("frames", bafirolen_write_frames(3, RUN, sizeof RUN, RUN_table, 12, out, BYTES), 0, sizeof RUN);
    output_is("frames", RUN, sizeof RUN);
}

static void required_keys(void)
{
    static const uint32_t lang[2] = {0, 4}, none[2] = {0, 0};
    BafirolenWritten w;
    w = bafirolen_write_only_authenticated(NULL, 0, 0, NULL, 0, NULL, 0, NULL, 0);
    written_at("no message to authenticate", w, BAFIROLEN_REFUSED_SHORTAGE, 2, 0);
    written_is("no required key", bafirolen_write_only_authenticated(H, 58, 20, NULL, 0, NULL, 0, NULL, 0), 0, 0);
    w = bafirolen_write_only_authenticated(H, 58, 20, NULL, 0, lang, 2, NULL, 0);
    written_is("a required key in no text", w, BAFIROLEN_REFUSED_REQUIRED_TABLE_OR_PLACE, 0);
    w = bafirolen_write_only_authenticated(H, 58, 20, H + 26, 4, lang, 2, NULL, 0);
    written_is("no room for its pair", w, BAFIROLEN_REFUSED_OUTPUT_TOO_SHORT, 0);
    fresh();
    w = bafirolen_write_only_authenticated(HOLLOW, 88, 35, NULL, 0, none, 2, out, BYTES);
    written_is("the empty key required", w, 0, 6);
    output_is("the empty key required", HOLLOW + 37, 6);
}

/* no draft; a key whose ID has no byte dropped; and a key of no byte added, into no room and into some, and dropped again */
static void drafts(void)
{
    uint8_t longer[BYTES] = {0};
    const size_t n = header_of(longer, 1, H + 20, 14, "\0\2\0\2p1\0\1a\0\3\xAA\xBB\xCC\0\0\0\0\0\0", 20);
    written_at("no draft", bafirolen_drop_encrypted_data_keys(NULL, 0, NULL, 0), BAFIROLEN_REFUSED_SHORTAGE, 1, 0);
    written_at("no draft", bafirolen_add_encrypted_data_key(NULL, 0, NULL, 0, NULL, 0, NULL, 0), BAFIROLEN_REFUSED_SHORTAGE, 1, 0);
    fresh();
    memcpy(out, BARE, sizeof BARE);
    written_is("no key remains", bafirolen_drop_encrypted_data_keys(out, BYTES, NULL, 0), BAFIROLEN_REFUSED_NO_KEY_REMAINS, 0);
    output_is("no key remains", BARE, sizeof BARE);
    fresh();
    memcpy(out, H, sizeof H);
    written_is("no such key", bafirolen_drop_encrypted_data_keys(out, BYTES, NULL, 0), 0, sizeof H);
    written_is("no room for a key", bafirolen_add_encrypted_data_key(out, sizeof H, NULL, 0, NULL, 0, NULL, 0),
               BAFIROLEN_REFUSED_OUTPUT_TOO_SHORT, 0);
    output_is("no room for a key", H, sizeof H);
    written_is("a key of no byte", bafirolen_add_encrypted_data_key(out, BYTES, NULL, 0, NULL, 0, NULL, 0), 0, n);
    output_is("a key of no byte", longer, n);
    written_is("dropped again", bafirolen_drop_encrypted_data_keys(out, BYTES, NULL, 0), 0, sizeof H);
    memset(longer, 0, sizeof longer);
    memcpy(longer, H, sizeof H);
    output_is("dropped again", longer, n);
}

/* no draft; an old one for which there is no ID, no suite data or no room; and the same reissued, ID and suite data all 00 */
static void reissues(void)
{
    static const uint8_t none[32];
    static const uint8_t image[82] = {[0] = 0x02, [1] = 0x04, [2] = 0x78, [38] = 0x01, [45] = 0x02, [48] = 0x10};
    BafirolenWritten w;
    w = bafirolen_reissued_header_body_len(NULL, 0, 0, 0x0478, NULL, 0, NULL, 0);
    written_at("no draft", w, BAFIROLEN_REFUSED_SHORTAGE, 1, 0);
    w = bafirolen_reissue_header_body(NULL, 0, 0, 0x0478, NULL, 0, NULL, 0, NULL, 0);
    written_at("no draft", w, BAFIROLEN_REFUSED_SHORTAGE, 1, 0);
    w = bafirolen_reissue_header_body(OLD, sizeof OLD, 0, 0x0478, NULL, 0, NULL, 0, NULL, 0);
    written_is("no ID", w, BAFIROLEN_REFUSED_ID_LENGTH, 0);
    w = bafirolen_reissue_header_body(OLD, sizeof OLD, 0, 0x0478, none, 32, NULL, 0, NULL, 0);
    written_is("no suite data", w, BAFIROLEN_REFUSED_SUITE_DATA_LENGTH, 0);
    w = bafirolen_reissue_header_body(OLD, sizeof OLD, 0, 0x0478, none, 32, none, 32, NULL, 0);
    written_is("no room", w, BAFIROLEN_REFUSED_OUTPUT_TOO_SHORT, 0);
    fresh();
    w = bafirolen_reissue_header_body(OLD, sizeof OLD, 0, 0x0478, none, 32, none, 32, out, BYTES);
    written_is("reissued", w, 0, sizeof image);
    output_is("reissued", image, sizeof image);
}

/* a header that is lent whole is accepted by each reader, written by each writer, mended and reissued, or the sets above would show
 * little; one without a key is refused by each that reads or writes its keys, and accepted by the others; one of version 2 is not
 * reissued */
static void whole(const struct export *e)
{
    const int under = e->call == read_body_under || e->call == write_body_under || e->call == body_length_under;
    const int reissues = e->call == reissue || e->call == reissued_length;
    const int of_keys = e->call == number || e->call == read_body || e->call == read_keys || e->call == write_keys
                        || e->call == write_body || e->call == body_length || e->call == drop_keys || e->call == add_key || under
                        || reissues;
    ask(e->call, 0, NULL);
    if (reissues && h->numbers.version == 2) {
        same(e->name, answer.record.number, BAFIROLEN_REFUSED_OTHER_VERSION);
    } else if (h->key_numbers == 0 && of_keys) {
        same(e->name, answer.record.number, BAFIROLEN_REFUSED_NO_ENCRYPTED_DATA_KEY);
    } else if (e->call != position && !(h->pair_numbers == 0 && (e->call == find || e->call == copy))) {
        same(e->name, answer.record.number, BAFIROLEN_ACCEPTED);
    }
}

int main(void)
{
    uint64_t *allocated = malloc(sizeof *allocated);
    size_t i, k;
    if (allocated == NULL) {
        abort();
    }
    for (i = 0; i < COUNT(headers); i++) {
        h = &headers[i];
        for (k = 0; k < COUNT(exports); k++) {
            whole(&exports[k]);
            by_null_and_by_another(&exports[k], allocated + 1);
        }
    }
    readers();
    writers();
    bare_headers(BAFIROLEN_TODAY, BARE, sizeof BARE);
    bare_headers(BAFIROLEN_OLD, OLD, sizeof OLD);
    forbidden();
    frames();
    required_keys();
    drafts();
    reissues();
    free(allocated);
    return compared();
}
