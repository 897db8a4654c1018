/*
 * A host in C: what is refused of a draft that is to be reissued, and of what is added to it, and that no byte of the output has
 * changed then. What reading version 1 only refuses comes first: every cut of a draft, and every byte of it changed, is answered as
 * that reader answers it; then 20, and 6, 7, 24, 25 and 28 of what is added. Each part is an allocation of exactly the bytes that
 * are lent. Writes `compared N cases`; a difference is written to standard error, and the exit status is 1.
 *
 *     tools/archives
 *     gcc -std=c99 -O2 -Wall -Wextra -Iinclude hosts/c/check_reissue_refused.c target/staticlib/libbafirolen_c.a \
 *         -o target/check_reissue_refused
 *     valgrind --error-exitcode=1 target/check_reissue_refused
 */
#define _GNU_SOURCE
#include "reissues.h"

#include <sys/mman.h>

/* refused whatever is added, with room and without */
static void refuses(const char *what, const uint8_t *m, size_t n, uint64_t start, uint64_t number, uint64_t position)
{
    refused_at(what, sound(m, n, start), number, position, BYTES);
    refused_at(what, faulty(m, n, start), number, position, BYTES);
}

/* drafts with one fault, in the order of the tests: another section, or a byte of H, or a body of version 2 */
static const struct row {
    const char *what;
    uint32_t version;
    const char *context, *keys;
    size_t context_len, keys_len, place;
    uint8_t byte;
    uint64_t number;
} rows[] = {{"version 3", 1, NULL, NULL, 0, 0, 0, 3, BAFIROLEN_REFUSED_UNKNOWN_VERSION},
            {"version 0", 1, NULL, NULL, 0, 0, 0, 0, BAFIROLEN_REFUSED_UNKNOWN_VERSION},
            {"version 2", 2, NULL, NULL, 0, 0, 0, 2, BAFIROLEN_REFUSED_OTHER_VERSION},
            {"version 2 and nothing good", 1, "\0\2\0\1", "\0\0", 4, 2, 0, 2, BAFIROLEN_REFUSED_OTHER_VERSION},
            {"type", 1, NULL, NULL, 0, 0, 1, 0x81, BAFIROLEN_REFUSED_MESSAGE_TYPE},
            {"suite", 1, NULL, NULL, 0, 0, 3, 0x79, BAFIROLEN_REFUSED_UNKNOWN_SUITE},
            {"suite of version 2", 1, NULL, NULL, 0, 0, 2, 0x05, BAFIROLEN_REFUSED_SUITE_OF_OTHER_VERSION},
            {"half a count", 1, "\0\1\0", NULL, 3, 0, 0, 1, BAFIROLEN_REFUSED_PAST_SECTION},
            {"a key past its section", 1, "\0\4\0\1\0\5", NULL, 6, 0, 0, 1, BAFIROLEN_REFUSED_PAST_SECTION},
            {"a count in an empty context", 1, "\0\2\0\1", NULL, 4, 0, 0, 1, BAFIROLEN_REFUSED_COUNT_IN_EMPTY_CONTEXT},
            {"no count in a context", 1, "\0\4\0\0\0\0", NULL, 6, 0, 0, 1, BAFIROLEN_REFUSED_NO_COUNT_IN_CONTEXT},
            {"a key not UTF-8", 1, "\0\7\0\1\0\1\xFF\0\0", NULL, 9, 0, 0, 1, BAFIROLEN_REFUSED_KEY_NOT_UTF8},
            {"a value not UTF-8", 1, "\0\7\0\1\0\0\0\1\xFF", NULL, 9, 0, 0, 1, BAFIROLEN_REFUSED_VALUE_NOT_UTF8},
            {"a key again", 1, "\0\x0A\0\2\0\0\0\0\0\0\0\0", NULL, 12, 0, 0, 1, BAFIROLEN_REFUSED_KEY_SEEN_BEFORE},
            {"a pair that ends early", 1, "\0\7\0\1\0\0\0\0x", NULL, 9, 0, 0, 1, BAFIROLEN_REFUSED_CONTEXT_LENGTH},
            {"no key", 1, NULL, "\0\0", 0, 2, 0, 1, BAFIROLEN_REFUSED_NO_ENCRYPTED_DATA_KEY},
            {"an ID not UTF-8", 1, NULL, "\0\1\0\1\xFF\0\0\0\0", 0, 9, 0, 1, BAFIROLEN_REFUSED_PROVIDER_ID_NOT_UTF8},
            {"the second ID not UTF-8", 1, NULL, "\0\2\0\0\0\0\0\0\0\1\xFF\0\0\0\0", 0, 15, 0, 1,
             BAFIROLEN_REFUSED_PROVIDER_ID_NOT_UTF8},
            {"content type", 1, NULL, NULL, 0, 0, 48, 3, BAFIROLEN_REFUSED_CONTENT_TYPE},
            {"reserved bytes", 1, NULL, NULL, 0, 0, 52, 1, BAFIROLEN_REFUSED_RESERVED_BYTES},
            {"IV length", 1, NULL, NULL, 0, 0, 53, 13, BAFIROLEN_REFUSED_IV_LENGTH},
            {"frame length", 1, NULL, NULL, 0, 0, 56, 0, BAFIROLEN_REFUSED_FRAME_LENGTH},
            {"frame length of one piece", 1, NULL, NULL, 0, 0, 48, 1, BAFIROLEN_REFUSED_FRAME_LENGTH}};

/* whatever is behind them; and a body of version 2 that breaks off is refused as soon as its first byte is there */
static void of_the_draft(void)
{
    uint8_t m[BYTES];
    size_t i, n, cut;
    for (i = 0; i < COUNT(rows); i++) {
        const struct row *r = &rows[i];
        n = header_of(m, r->version, r->context == NULL ? (const void *)(H + 20) : r->context,
                      r->context == NULL ? 14 : r->context_len, r->keys == NULL ? (const void *)(H + 34) : r->keys,
                      r->keys == NULL ? 14 : r->keys_len);
        m[r->place] = r->byte;
        refuses(r->what, m, n, 0, r->number, 0);
        n = append(m, n, V2, sizeof V2);
        refuses(r->what, m, n, 0, r->number, 0);
    }
    for (cut = 1; cut <= sizeof V2; cut++) {
        refuses("a cut of version 2", V2, cut, 0, BAFIROLEN_REFUSED_OTHER_VERSION, 0);
    }
}

/* every cut of H wants the end of the next field, of which the context section is one */
static void cuts_of_h(void)
{
    static const size_t ends[] = {1, 2, 4, 20, 22, 34, 36, 38, 40, 42, 43, 45, 48, 49, 53, 54, 58}, starts[] = {0, 1, 40};
    uint8_t m[BYTES];
    size_t i, cut, next;
    for (i = 0; i < COUNT(starts); i++) {
        const size_t start = starts[i];
        memset(m, 2, start);
        memcpy(m + start, H, sizeof H);
        for (cut = 0, next = 0; cut < sizeof H; cut++) {
            next += ends[next] == cut;
            refuses("a cut of H", m, start + cut, start, BAFIROLEN_REFUSED_SHORTAGE, start + ends[next]);
        }
    }
}

/* what document 02 says of exactly these bytes, by what the reader of version 1 answers: its refusal, 20, or none */
static BafirolenBody reader(const uint8_t *m, size_t n)
{
    BafirolenBody b;
    fresh();
    b = bafirolen_read_header_body(m, n, 0, BAFIROLEN_V1_ONLY, BAFIROLEN_TOLERANT, BAFIROLEN_NO_MAX, 0, pairs, NUMBERS, keys,
                                   NUMBERS);
    if (b.number == BAFIROLEN_ACCEPTED && (b.numbers.contentType == BAFIROLEN_NON_FRAMED) != (b.numbers.frameLength == 0)) {
        b.number = BAFIROLEN_REFUSED_FRAME_LENGTH;
    }
    return b;
}

static void as_the_reader(const char *what, const uint8_t *m, size_t n)
{
    const BafirolenBody b = reader(m, n);
    if (b.number != BAFIROLEN_ACCEPTED) {
        refuses(what, m, n, 0, b.number, b.position);
        return;
    }
    refused_at(what, faulty(m, n, 0), BAFIROLEN_REFUSED_UNKNOWN_SUITE, 0, BYTES);
    written_is(what, measured(sound(m, n, 0)), BAFIROLEN_ACCEPTED, b.tail + (b.numbers.form == BAFIROLEN_OLD ? 40 : 42));
}

/* every cut of a draft, and every byte of it with some other values */
static void cuts_and_bytes(const char *context, size_t context_len)
{
    static const uint8_t changes[] = {0x01, 0x02, 0x03, 0x10, 0x80, 0xFF};
    uint8_t m[BYTES];
    const size_t n = header_of(m, 1, context, context_len, V2 + 53, 18);
    size_t cut, i;
    for (cut = 0; cut < n; cut++) {
        same("a cut", reader(m, cut).number, BAFIROLEN_REFUSED_SHORTAGE);
        as_the_reader("a cut", m, cut);
        for (i = 0; i < COUNT(changes); i++) {
            m[cut] ^= changes[i];
            as_the_reader("a byte", m, n);
            m[cut] ^= changes[i];
        }
    }
    as_the_reader("a draft", m, n);
}

/* 20 of the draft, then 6 or 7, 24, 25 and 28, whatever comes after the first of them that applies */
static void added(const uint8_t *m, uint64_t of_draft, uint32_t suite, uint64_t of_suite)
{
    static const size_t lengths[] = {0, 16, 31, 32, 33, 64};
    struct request r = sound(m, sizeof H, 0);
    const struct handed_on h = {H + 20, H + 34, 14, 14, H + 48, H + 54};
    uint8_t image[BYTES];
    size_t i, k;
    r.suite = suite;
    /* the bytes behind ID and data are not looked at */
    r.id = V2;
    r.data = V2 + 40;
    for (i = 0; i < COUNT(lengths); i++) {
        for (k = 0; k < COUNT(lengths); k++) {
            const uint64_t number = of_draft != 0    ? of_draft
                                  : of_suite != 0    ? of_suite
                                  : lengths[i] != 32 ? BAFIROLEN_REFUSED_ID_LENGTH
                                  : lengths[k] != 32 ? BAFIROLEN_REFUSED_SUITE_DATA_LENGTH
                                                     : BAFIROLEN_ACCEPTED;
            r.id_len = lengths[i];
            r.data_len = lengths[k];
            if (number == BAFIROLEN_ACCEPTED) {
                const struct request whole = lend_all(r);
                fits("nothing is wrong", whole, image, second_of(image, &h, &r));
                written_into("no room", whole, 0, BAFIROLEN_REFUSED_OUTPUT_TOO_SHORT, H, 0);
                let_go();
            } else {
                refused_at("what is added", r, number, 0, BYTES);
            }
        }
    }
}

/* suites of both versions, and numbers beside them and above 16 bits */
static void suites(void)
{
    static const uint32_t first[] = {0x0014, 0x0046, 0x0078, 0x0114, 0x0146, 0x0178, 0x0214, 0x0346, 0x0378};
    static const uint32_t unknown[] = {0,       1,       0x0477,    0x0479,     0x0577,  0x0579,    0x7804,
                                       0x10478, 0x10578, 0x4780000, 0x80000478, 0x10178, UINT32_MAX};
    uint8_t other[sizeof H];
    size_t i;
    memcpy(other, H, sizeof H);
    other[48] = 1;
    added(H, 0, 0x0478, 0);
    added(H, 0, 0x0578, 0);
    added(other, BAFIROLEN_REFUSED_FRAME_LENGTH, 0x0578, 0);
    for (i = 0; i < COUNT(first); i++) {
        added(H, 0, first[i], BAFIROLEN_REFUSED_SUITE_OF_OTHER_VERSION);
        added(other, BAFIROLEN_REFUSED_FRAME_LENGTH, first[i], BAFIROLEN_REFUSED_SUITE_OF_OTHER_VERSION);
    }
    for (i = 0; i < COUNT(unknown); i++) {
        added(H, 0, unknown[i], BAFIROLEN_REFUSED_UNKNOWN_SUITE);
        added(other, BAFIROLEN_REFUSED_FRAME_LENGTH, unknown[i], BAFIROLEN_REFUSED_UNKNOWN_SUITE);
    }
}

/* behind the message, where the first byte is wanted, and where no place is */
static void starts(void)
{
    static const uint64_t behind[] = {58, 59, 1000, 4294967295u}, nowhere[] = {4294967296u, 4294967354u, UINT64_MAX};
    size_t i;
    for (i = 0; i < COUNT(behind); i++) {
        refuses("a start behind", H, sizeof H, behind[i], BAFIROLEN_REFUSED_SHORTAGE, behind[i] + 1);
    }
    for (i = 0; i < COUNT(nowhere); i++) {
        refuses("1", H, sizeof H, nowhere[i], BAFIROLEN_REFUSED_NOT_ADDRESSABLE, 0);
        refuses("1", H, 0, nowhere[i], BAFIROLEN_REFUSED_NOT_ADDRESSABLE, 0);
    }
}

/* a message as long as it may be, with a draft at its end, and one byte longer; nearly all of it is never touched */
static void four_gibibytes(void)
{
    const size_t longer = 4294967296u, start = longer - 1 - sizeof H;
    const struct handed_on h = {H + 20, H + 34, 14, 14, H + 48, H + 54};
    uint8_t image[BYTES], *m = mmap(NULL, longer, PROT_READ | PROT_WRITE, MAP_PRIVATE | MAP_ANONYMOUS | MAP_NORESERVE, -1, 0);
    struct request r = sound(m, longer, start), bad = faulty(m, longer, start);
    if (m == MAP_FAILED) {
        abort();
    }
    memcpy(m + start, H, sizeof H);
    written_is("1", measured(r), BAFIROLEN_REFUSED_NOT_ADDRESSABLE, 0);
    written_into("1", r, BYTES, BAFIROLEN_REFUSED_NOT_ADDRESSABLE, H, 0);
    written_into("1", bad, BYTES, BAFIROLEN_REFUSED_NOT_ADDRESSABLE, H, 0);
    r.text_len--;
    fits("the longest message", r, image, second_of(image, &h, &r));
    r.text_len--;
    written_at("the longest message, cut", measured(r), BAFIROLEN_REFUSED_SHORTAGE, longer - 1, 0);
    written_into_at("the longest message, cut", r, BYTES, BAFIROLEN_REFUSED_SHORTAGE, longer - 1, H, 0);
    munmap(m, longer);
}

int main(void)
{
    of_the_draft();
    cuts_of_h();
    cuts_and_bytes("\0\0", 2);
    cuts_and_bytes("\0\2\0\0", 4);
    cuts_and_bytes((const char *)V2 + 35, 18);
    suites();
    starts();
    four_gibibytes();
    return compared();
}
