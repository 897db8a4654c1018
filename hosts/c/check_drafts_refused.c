/*
 * A host in C: what is refused of a draft that is to be mended, by dropping keys or adding one, and that no byte of the buffer has
 * changed then. What the body reader refuses comes first: every cut of a draft, and every byte of it changed, is answered as that
 * reader answers it; then 40, or 16, 27 and 28. Each part is an allocation of exactly the bytes that are lent. Writes `compared N
 * cases`; a difference is written to standard error, and the exit status is 1.
 *
 *     tools/archives
 *     gcc -std=c99 -O2 -Wall -Wextra -Iinclude hosts/c/check_drafts_refused.c target/staticlib/libbafirolen_c.a \
 *         -o target/check_drafts_refused
 *     valgrind --error-exitcode=1 target/check_drafts_refused
 */
#define _GNU_SOURCE
#include "drafts.h"

#include <sys/mman.h>

/* a key that every draft here has, one that is added, and one that is refused by 16 and by 27, if it is looked at */
static uint8_t long_part[65536];
static const struct key first = KEY("p1", "a", "\xAA\xBB\xCC"), new_one = KEY("p2", "b", "\xDD");
static const struct key faulty = {{"\xFF", long_part, ""}, {1, 65536, 0}};

/* both refuse a draft, with room behind it and without, whatever they are asked */
static void both_refuse(const char *what, const uint8_t *draft, size_t n, uint64_t number, uint64_t position)
{
    size_t room;
    for (room = 0; room <= 50; room += 50) {
        drop_refused(what, draft, n, room, &first, number, position);
        drop_refused(what, draft, n, room, &new_one, number, position);
        add_refused(what, draft, n, room, &new_one, number, position);
        add_refused(what, draft, n, room, &faulty, number, position);
    }
}

/* drafts with one fault, in the order of the tests: another section, or a byte of H or of a draft of version 2 with H's sections */
static const struct row {
    const char *what;
    uint32_t version;
    const char *context, *keys;
    size_t context_len, keys_len, place;
    uint8_t byte;
    uint64_t number;
} rows[] = {{"version", 1, NULL, NULL, 0, 0, 0, 3, BAFIROLEN_REFUSED_UNKNOWN_VERSION},
            {"version", 2, NULL, NULL, 0, 0, 0, 0, BAFIROLEN_REFUSED_UNKNOWN_VERSION},
            {"type", 1, NULL, NULL, 0, 0, 1, 0x81, BAFIROLEN_REFUSED_MESSAGE_TYPE},
            {"suite", 1, NULL, NULL, 0, 0, 3, 0x79, BAFIROLEN_REFUSED_UNKNOWN_SUITE},
            {"suite", 2, NULL, NULL, 0, 0, 2, 0x79, BAFIROLEN_REFUSED_UNKNOWN_SUITE},
            {"suite of version 2", 1, NULL, NULL, 0, 0, 2, 0x05, BAFIROLEN_REFUSED_SUITE_OF_OTHER_VERSION},
            {"suite of version 1", 2, NULL, NULL, 0, 0, 1, 0x01, BAFIROLEN_REFUSED_SUITE_OF_OTHER_VERSION},
            {"a key past its section", 1, "\0\4\0\1\0\5", NULL, 6, 0, 0, 1, BAFIROLEN_REFUSED_PAST_SECTION},
            {"half a count", 2, "\0\1\0", NULL, 3, 0, 0, 2, BAFIROLEN_REFUSED_PAST_SECTION},
            {"a count in an empty context", 1, "\0\2\0\1", NULL, 4, 0, 0, 1, BAFIROLEN_REFUSED_COUNT_IN_EMPTY_CONTEXT},
            {"no count in a context", 2, "\0\4\0\0\0\0", NULL, 6, 0, 0, 2, BAFIROLEN_REFUSED_NO_COUNT_IN_CONTEXT},
            {"a key not UTF-8", 1, "\0\7\0\1\0\1\xFF\0\0", NULL, 9, 0, 0, 1, BAFIROLEN_REFUSED_KEY_NOT_UTF8},
            {"a value not UTF-8", 2, "\0\7\0\1\0\0\0\1\xFF", NULL, 9, 0, 0, 2, BAFIROLEN_REFUSED_VALUE_NOT_UTF8},
            {"a key again", 1, "\0\x0A\0\2\0\0\0\0\0\0\0\0", NULL, 12, 0, 0, 1, BAFIROLEN_REFUSED_KEY_SEEN_BEFORE},
            {"a pair that ends early", 2, "\0\7\0\1\0\0\0\0x", NULL, 9, 0, 0, 2, BAFIROLEN_REFUSED_CONTEXT_LENGTH},
            {"no key", 1, NULL, "\0\0", 0, 2, 0, 1, BAFIROLEN_REFUSED_NO_ENCRYPTED_DATA_KEY},
            {"no key", 2, NULL, "\0\0", 0, 2, 0, 2, BAFIROLEN_REFUSED_NO_ENCRYPTED_DATA_KEY},
            {"an ID not UTF-8", 1, NULL, "\0\1\0\1\xFF\0\0\0\0", 0, 9, 0, 1, BAFIROLEN_REFUSED_PROVIDER_ID_NOT_UTF8},
            {"the second ID not UTF-8", 2, NULL, "\0\2\0\0\0\0\0\0\0\1\xFF\0\0\0\0", 0, 15, 0, 2,
             BAFIROLEN_REFUSED_PROVIDER_ID_NOT_UTF8},
            {"content type", 1, NULL, NULL, 0, 0, 48, 3, BAFIROLEN_REFUSED_CONTENT_TYPE},
            {"content type", 2, NULL, NULL, 0, 0, 63, 0, BAFIROLEN_REFUSED_CONTENT_TYPE},
            {"reserved bytes", 1, NULL, NULL, 0, 0, 52, 1, BAFIROLEN_REFUSED_RESERVED_BYTES},
            {"IV length", 1, NULL, NULL, 0, 0, 53, 13, BAFIROLEN_REFUSED_IV_LENGTH},
            {"frame length", 1, NULL, NULL, 0, 0, 56, 0, BAFIROLEN_REFUSED_FRAME_LENGTH},
            {"frame length of one piece", 2, NULL, NULL, 0, 0, 63, 1, BAFIROLEN_REFUSED_FRAME_LENGTH}};

static void readers_refusals(void)
{
    uint8_t m[BYTES];
    size_t i;
    for (i = 0; i < COUNT(rows); i++) {
        const struct row *r = &rows[i];
        const size_t n = header_of(m, r->version, r->context == NULL ? (const void *)(H + 20) : r->context,
                                   r->context == NULL ? 14 : r->context_len, r->keys == NULL ? (const void *)(H + 34) : r->keys,
                                   r->keys == NULL ? 14 : r->keys_len);
        m[r->place] = r->byte;
        both_refuse(r->what, m, n, r->number, 0);
    }
}

/* what the reader answers of exactly these bytes; none of them has more pairs or keys than its tables hold */
static BafirolenBody reader(const uint8_t *m, size_t n)
{
    fresh();
    return bafirolen_read_header_body(m, n, 0, BAFIROLEN_EITHER, BAFIROLEN_TOLERANT, BAFIROLEN_NO_MAX, 0, pairs, NUMBERS, keys,
                                      NUMBERS);
}

/* without room behind them, so that what is missing is not there; of a draft that is whole no key has the ID */
static void as_the_reader(const char *what, const uint8_t *m, size_t n)
{
    const struct key absent = KEY("absent", "", "");
    const BafirolenBody b = reader(m, n);
    if (b.number == BAFIROLEN_ACCEPTED) {
        uint8_t *buffer = lend_draft(m, n, 0);
        written_is(what, drop(buffer, n, &absent), BAFIROLEN_ACCEPTED, b.tail);
        same_bytes(what, buffer, m, n);
        let_go();
        add_refused(what, m, n, 0, &faulty, BAFIROLEN_REFUSED_PROVIDER_ID_NOT_UTF8, 0);
    } else {
        drop_refused(what, m, n, 0, &absent, b.number, b.position);
        add_refused(what, m, n, 0, &new_one, b.number, b.position);
        add_refused(what, m, n, 0, &faulty, b.number, b.position);
    }
}

/* every cut of a draft, and every byte of it with some other values */
static void cuts_and_bytes(uint32_t version, size_t context)
{
    static const uint8_t changes[] = {0x01, 0x02, 0x03, 0x10, 0x80, 0xFF};
    struct key two[2];
    uint8_t m[BYTES];
    size_t n, cut, i;
    two[0] = first;
    two[1] = new_one;
    n = draft_of(m, version, context, two, 2);
    for (cut = 0; cut < n; cut++) {
        same("a cut", reader(m, cut).number, BAFIROLEN_REFUSED_SHORTAGE);
        as_the_reader("a cut", m, cut);
    }
    for (cut = 0; cut < n; cut++) {
        for (i = 0; i < COUNT(changes); i++) {
            m[cut] ^= changes[i];
            as_the_reader("a byte", m, n);
            m[cut] ^= changes[i];
        }
    }
    as_the_reader("a draft", m, n);
}

/* a key that is longer in one part or in several, or whose ID is not UTF-8 in its last byte, into every room about what it takes */
static void keys_refused(uint32_t version, size_t context)
{
    static const size_t lengths[] = {0, 1, 65535, 65536};
    static uint8_t bad[65536];
    static uint8_t whole[LONGEST], wanted[LONGEST];
    const size_t n = draft_of(whole, version, context, &first, 1);
    size_t i, k, l, end;
    memset(bad, 'z', sizeof bad);
    for (i = 0; i < COUNT(lengths); i++) {
        for (k = 0; k < COUNT(lengths); k++) {
            for (l = 0; l < COUNT(lengths); l++) {
                struct key one = {{long_part, long_part, long_part}, {lengths[i], lengths[k], lengths[l]}}, both[2];
                const size_t takes = taken_by(&one);
                const int too_long = lengths[i] > 65535 || lengths[k] > 65535 || lengths[l] > 65535;
                if (too_long) {
                    add_refused("27", whole, n, takes, &one, BAFIROLEN_REFUSED_COUNT_OR_PART_TOO_LONG, 0);
                    add_refused("27 before 28", whole, n, 0, &one, BAFIROLEN_REFUSED_COUNT_OR_PART_TOO_LONG, 0);
                } else {
                    both[0] = first;
                    both[1] = one;
                    adds("a long key", whole, n, takes, &one, wanted, draft_of(wanted, version, context, both, 2));
                    add_refused("28", whole, n, takes - 1, &one, BAFIROLEN_REFUSED_OUTPUT_TOO_SHORT, 0);
                }
                end = lengths[i];
                if (end > 0) {
                    bad[end - 1] = 0xC3;
                    one.parts[0] = bad;
                    add_refused("16 before 27", whole, n, takes, &one, BAFIROLEN_REFUSED_PROVIDER_ID_NOT_UTF8, 0);
                    add_refused("16 before 28", whole, n, 0, &one, BAFIROLEN_REFUSED_PROVIDER_ID_NOT_UTF8, 0);
                    bad[end - 1] = 'z';
                }
            }
        }
    }
}

/* 40 of one key and of several, and not where another remains; and an ID that is not UTF-8 is no key's, and no refusal */
static void no_key_remains(void)
{
    const struct key begins = KEY("p", "", ""), bad = KEY("\xFF", "", "");
    struct key several[4];
    uint8_t m[BYTES], one[BYTES];
    size_t count, other, n;
    for (count = 1; count <= COUNT(several); count++) {
        for (other = 0; other < count; other++) {
            several[other] = first;
        }
        n = draft_of(m, 1, 0, several, count);
        drop_refused("40", m, n, 0, &first, BAFIROLEN_REFUSED_NO_KEY_REMAINS, 0);
        drop_refused("40", m, n, 9, &first, BAFIROLEN_REFUSED_NO_KEY_REMAINS, 0);
        drops("a beginning", m, n, 9, &begins, m, n);
        drops("no key's", m, n, 9, &bad, m, n);
        for (other = 0; other < count; other++) {
            several[other] = new_one;
            n = draft_of(m, 1, 0, several, count);
            drops("one remains", m, n, 9, &first, one, draft_of(one, 1, 0, &new_one, 1));
            several[other] = first;
        }
    }
}

/* a buffer as long as it may be, and one byte longer; nearly all of it is never touched */
static void four_gibibytes(void)
{
    const size_t longer = 4294967296u;
    struct key two[2];
    uint8_t m[BYTES], *buffer = mmap(NULL, longer, PROT_READ | PROT_WRITE, MAP_PRIVATE | MAP_ANONYMOUS | MAP_NORESERVE, -1, 0);
    size_t n;
    if (buffer == MAP_FAILED) {
        abort();
    }
    two[0] = first;
    two[1] = new_one;
    n = draft_of(m, 1, 1, two, 2);
    memcpy(buffer, m, n);
    written_is("1", drop(buffer, longer, &first), BAFIROLEN_REFUSED_NOT_ADDRESSABLE, 0);
    written_is("1", add(buffer, longer, &faulty), BAFIROLEN_REFUSED_NOT_ADDRESSABLE, 0);
    same_bytes("1", buffer, m, n);
    let_go();
    written_is("the longest buffer", add(buffer, longer - 1, &new_one), BAFIROLEN_ACCEPTED, n + taken_by(&new_one));
    n = draft_of(m, 1, 1, &first, 1);
    written_is("the longest buffer", drop(buffer, longer - 1, &new_one), BAFIROLEN_ACCEPTED, n);
    same_bytes("the longest buffer", buffer, m, n);
    all_cleared("the longest buffer", buffer, n, 65536);
    let_go();
    munmap(buffer, longer);
}

int main(void)
{
    uint32_t version;
    size_t context;
    memset(long_part, 'a', sizeof long_part);
    readers_refusals();
    for (version = 1; version <= 2; version++) {
        for (context = 0; context < COUNT(contexts); context++) {
            cuts_and_bytes(version, context);
        }
        keys_refused(version, version);
    }
    no_key_remains();
    four_gibibytes();
    return compared();
}
