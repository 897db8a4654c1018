/*
 * A host in C: bodies written under a commitment policy, and measured before. What the policy does not write is refused by 39,
 * behind whatever is refused of version, type and suite, and before all else; what it writes has the bytes that are written without
 * one. Each part is an allocation of exactly the bytes that are lent, and so is the output. Writes `compared N cases`; a difference
 * is written to standard error, and the exit status is 1.
 *
 *     tools/archives
 *     gcc -std=c99 -O2 -Wall -Wextra -Iinclude hosts/c/check_policies_written.c target/staticlib/libbafirolen_c.a \
 *         -o target/check_policies_written
 *     valgrind --error-exitcode=1 target/check_policies_written
 */
#include "lending.h"
#include "policies.h"

/* what the writer is lent beside the output */
struct request {
    BafirolenNumbers numbers;
    uint32_t policy;
    const uint8_t *id, *data, *text;
    const uint32_t *pairs, *keys;
    size_t id_len, data_len, text_len, pairs_len, keys_len;
};

static struct request lend_all(struct request r)
{
    r.id = lend_const(r.id, r.id_len);
    r.data = lend_const(r.data, r.data_len);
    r.text = lend_const(r.text, r.text_len);
    r.pairs = lend_const(r.pairs, r.pairs_len * sizeof *r.pairs);
    r.keys = lend_const(r.keys, r.keys_len * sizeof *r.keys);
    return r;
}

static BafirolenWritten measured(struct request r)
{
    return bafirolen_header_body_len_under_policy(r.numbers, r.policy, r.id, r.id_len, r.data, r.data_len, r.text, r.text_len,
                                                  r.pairs, r.pairs_len, r.keys, r.keys_len);
}

static BafirolenWritten written(struct request r, uint8_t *o, size_t room)
{
    return bafirolen_write_header_body_under_policy(r.numbers, r.policy, r.id, r.id_len, r.data, r.data_len, r.text, r.text_len,
                                                    r.pairs, r.pairs_len, r.keys, r.keys_len, o, room);
}

#include "measured.h"

/* the fields of the header of a version, and the header as their text; marked old it has no pair */
static struct request request_of(const uint8_t *m, size_t n, uint32_t version, uint32_t form)
{
    static const uint32_t second_pairs[4] = {41, 4, 47, 2}, second_keys[6] = {53, 2, 57, 1, 60, 3};
    static const uint32_t old_keys[6] = {28, 2, 32, 1, 35, 3}, second_old_keys[6] = {43, 2, 47, 1, 50, 3};
    struct request r = {bafirolen_v1_numbers(0x0178, BAFIROLEN_FRAMED, 4096), BAFIROLEN_NO_POLICY, m + 4, m, m, H_pairs, H_keys,
                        16, 0, n, 4, 6};
    if (version == 2) {
        r.numbers = bafirolen_v2_numbers(0x0578, BAFIROLEN_FRAMED, 4096);
        r.id = m + 3;
        r.id_len = r.data_len = 32;
        r.data = m + n - 32;
        r.pairs = second_pairs;
        r.keys = second_keys;
    }
    if (form == BAFIROLEN_OLD) {
        r.numbers.form = form;
        r.pairs_len = 0;
        r.keys = version == 1 ? old_keys : second_old_keys;
    }
    return r;
}

static size_t image_of(uint8_t *m, uint32_t version, uint32_t form)
{
    return form == BAFIROLEN_OLD ? bare_header(m, version, form) : header_of(m, version, H + 20, 14, H + 34, 14);
}

/* the image, into rooms about its length, or 39; without a policy it is the same image */
static void versions(uint32_t version, uint32_t form)
{
    uint8_t image[BYTES];
    const size_t n = image_of(image, version, form);
    const struct request sound = request_of(image, n, version, form);
    size_t i;
    for (i = 0; i < COUNT(policies); i++) {
        struct request r = sound;
        r.policy = policies[i].number;
        if (policies[i].writes[version - 1]) {
            r = lend_all(r);
            fits("what a policy writes", r, image, n);
            let_go();
        } else {
            refused_by("what a policy does not write", r, BAFIROLEN_REFUSED_FORBIDDEN_BY_POLICY);
        }
    }
    fresh();
    written_is("without a policy",
               bafirolen_write_header_body(sound.numbers, sound.id, sound.id_len, sound.data, sound.data_len, sound.text,
                                           sound.text_len, sound.pairs, sound.pairs_len, sound.keys, sound.keys_len, out, BYTES),
               BAFIROLEN_ACCEPTED, n);
    output_is("without a policy", image, n);
}

/* under every policy: a fault that is tested before the policy is, or behind that */
static void fault(const char *what, struct request r, uint32_t version, int before, uint64_t number)
{
    size_t i;
    for (i = 0; i < COUNT(policies); i++) {
        r.policy = policies[i].number;
        refused_by(what, r, before || policies[i].writes[version - 1] ? number : BAFIROLEN_REFUSED_FORBIDDEN_BY_POLICY);
    }
}

static void faults_before(struct request sound, uint32_t version)
{
    struct request r = sound;
    /* an ID that is refused by 24 behind all of them */
    r.id_len--;
    r.numbers.version = 3;
    fault("version", r, version, 1, BAFIROLEN_REFUSED_UNKNOWN_VERSION);
    r.numbers.version = version + 256;
    fault("a version of nine bits", r, version, 1, BAFIROLEN_REFUSED_UNKNOWN_VERSION);
    r.numbers.version = version;
    r.numbers.messageType ^= 1;
    fault("type", r, version, 1, BAFIROLEN_REFUSED_MESSAGE_TYPE);
    r.numbers.messageType = sound.numbers.messageType;
    r.numbers.suite++;
    fault("suite", r, version, 1, BAFIROLEN_REFUSED_UNKNOWN_SUITE);
    r.numbers.suite = version == 1 ? 0x0478 : 0x0378;
    fault("suite of the other version", r, version, 1, BAFIROLEN_REFUSED_SUITE_OF_OTHER_VERSION);
}

/* each alone, in the order of the tests */
static void faults_behind(struct request sound, uint32_t version)
{
    static const uint32_t nothing[6];
    static const struct {
        const char *what;
        ptrdiff_t id, pairs, keys, data;
        uint32_t content_type, iv_length, frame_length, form;
        uint64_t number;
    } rows[] = {{"ID", -1, 0, 0, 0, 0, 0, 0, 0, BAFIROLEN_REFUSED_ID_LENGTH},
                {"pairs not in fours", 0, -1, 0, 0, 0, 0, 0, 0, BAFIROLEN_REFUSED_TABLE_OR_PLACE},
                {"a pair marked old", 0, 0, 0, 0, 0, 0, 0, 1, BAFIROLEN_REFUSED_PAIR_IN_OLD_FORM},
                {"keys not in sixes", 0, 0, -1, 0, 0, 0, 0, 0, BAFIROLEN_REFUSED_TABLE_OR_PLACE},
                {"no key", 0, 0, -6, 0, 0, 0, 0, 0, BAFIROLEN_REFUSED_NO_ENCRYPTED_DATA_KEY},
                {"content type", 0, 0, 0, 0, 1, 0, 0, 0, BAFIROLEN_REFUSED_CONTENT_TYPE},
                {"IV length", 0, 0, 0, 0, 0, 1, 0, 0, BAFIROLEN_REFUSED_IV_LENGTH},
                {"suite data", 0, 0, 0, 1, 0, 0, 0, 0, BAFIROLEN_REFUSED_SUITE_DATA_LENGTH},
                {"frame length", 0, 0, 0, 0, 0, 0, 4096, 0, BAFIROLEN_REFUSED_FRAME_LENGTH}};
    struct request r;
    size_t i;
    for (i = 0; i < COUNT(rows); i++) {
        r = sound;
        r.id_len += (size_t)rows[i].id;
        r.pairs_len += (size_t)rows[i].pairs;
        r.keys_len += (size_t)rows[i].keys;
        /* from the text's front, which has a byte more than any suite data */
        r.data = r.text;
        r.data_len += (size_t)rows[i].data;
        r.numbers.contentType += rows[i].content_type;
        r.numbers.headerIvLength += rows[i].iv_length;
        r.numbers.frameLength -= rows[i].frame_length;
        r.numbers.form = rows[i].form;
        fault(rows[i].what, r, version, 0, rows[i].number);
    }
    r = sound;
    r.keys = nothing;
    r.text_len = 1;
    fault("a pair outside", r, version, 0, BAFIROLEN_REFUSED_TABLE_OR_PLACE);
}

/* in front of an ID that is refused by 24, where nothing is refused before it */
static void suite_of(struct request r, uint32_t version)
{
    size_t i;
    for (i = 0; i < COUNT(policies); i++) {
        const uint64_t refused = suite_refused(r.numbers.suite, version, policies[i].writes[version - 1]);
        const uint64_t number = refused == BAFIROLEN_ACCEPTED ? BAFIROLEN_REFUSED_ID_LENGTH : refused;
        r.policy = policies[i].number;
        fresh();
        written_is("a suite", measured(r), number, 0);
        written_is("a suite", written(r, out, BYTES), number, 0);
        output_is("a suite", fresh_bytes, 0);
    }
}

/* of 16 bits and of more */
static void suites(uint32_t version)
{
    struct request r = request_of(H, sizeof H, version, BAFIROLEN_TODAY);
    uint32_t suite;
    r.id_len = 0;
    for (suite = 0; suite <= 0xFFFF; suite = next_suite(suite)) {
        r.numbers.suite = suite;
        suite_of(r, version);
        r.numbers.suite = suite | 0x10000;
        suite_of(r, version);
    }
}

int main(void)
{
    uint8_t m[BYTES];
    uint32_t version, form;
    for (version = 1; version <= 2; version++) {
        const size_t n = image_of(m, version, BAFIROLEN_TODAY);
        for (form = BAFIROLEN_TODAY; form <= BAFIROLEN_OLD; form++) {
            versions(version, form);
        }
        faults_before(request_of(m, n, version, BAFIROLEN_TODAY), version);
        faults_behind(request_of(m, n, version, BAFIROLEN_TODAY), version);
        suites(version);
    }
    return compared();
}
