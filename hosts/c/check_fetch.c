/*
 * A host in C that fetches messages in pieces: of every two beginnings of a message the promises of bafirolen_fetch.h, sentence by
 * sentence; and its loop, from sources that give one byte at once, or seven, or all. Headers, sections, records and frames, whole,
 * cut and damaged; and how many rounds they take. Each part is an allocation of exactly the bytes that are lent. Writes `compared N
 * cases`; a difference is written to standard error, and the exit status is 1.
 *
 *     tools/archives
 *     gcc -std=c99 -O2 -Wall -Wextra -Iinclude hosts/c/check_fetch.c target/staticlib/libbafirolen_c.a -o target/check_fetch
 *     valgrind --error-exitcode=1 target/check_fetch
 */
#include "fetching.h"
#include "frames.h"

static const struct asked plain = {BODY, 0, BAFIROLEN_EITHER, BAFIROLEN_TOLERANT, BAFIROLEN_NO_POLICY, NUMBERS};

/* by hand */
static void macros(void)
{
    static const struct {
        uint64_t count, rounds, frame_rounds;
    } rows[] = {{0, 11, 6},   {1, 17, 6},   {2, 23, 10},
                {10, 71, 42}, {65535, 393221, 262142}, {4294967295u, 25769803781u, 17179869182u}};
    size_t i;
    for (i = 0; i < COUNT(rows); i++) {
        same("the most rounds", BAFIROLEN_MOST_ROUNDS(rows[i].count), rows[i].rounds);
        same("the most rounds of frames", BAFIROLEN_MOST_FRAME_ROUNDS(rows[i].count), rows[i].frame_rounds);
        /* in 64 bits, though the argument has 32, and whatever operators it has */
        same("a narrow count", BAFIROLEN_MOST_ROUNDS((uint32_t)rows[i].count | 0), rows[i].rounds);
        same("a narrow count", BAFIROLEN_MOST_FRAME_ROUNDS((uint32_t)rows[i].count | 0), rows[i].frame_rounds);
    }
}

/* a header at two starts, with bytes behind it that are none of it: as it is asked for otherwise, and with tables too short */
static void header(const char *what, const uint8_t *bytes, size_t length, uint64_t rounds)
{
    static const struct asked others[] = {
        {BODY, 0, BAFIROLEN_EITHER, BAFIROLEN_STRICT, BAFIROLEN_NO_POLICY, NUMBERS},
        {BODY, 0, BAFIROLEN_V1_ONLY, BAFIROLEN_TOLERANT, BAFIROLEN_NO_POLICY, NUMBERS},
        {BODY, 0, BAFIROLEN_V2_ONLY, BAFIROLEN_TOLERANT, BAFIROLEN_REQUIRE_ENCRYPT_ALLOW_DECRYPT, NUMBERS},
        {BODY, 0, BAFIROLEN_EITHER, BAFIROLEN_STRICT, BAFIROLEN_REQUIRE_ENCRYPT_REQUIRE_DECRYPT, NUMBERS},
        {BODY, 0, BAFIROLEN_EITHER, BAFIROLEN_TOLERANT, BAFIROLEN_NO_POLICY, 0},
        {BODY, 0, BAFIROLEN_EITHER, BAFIROLEN_TOLERANT, BAFIROLEN_NO_POLICY, 5}};
    struct asked a = plain;
    uint8_t m[LONGEST];
    size_t i;
    for (a.start = 0; a.start <= 3; a.start += 3) {
        memset(m, KEPT, sizeof m);
        memcpy(m + a.start, bytes, length);
        same(what, fed(what, &a, m, a.start + length + 9), rounds);
        same(what, told[a.start + length].tail, a.start + length);
        for (i = 0; i < COUNT(others); i++) {
            struct asked b = others[i];
            b.start = a.start;
            fed(what, &b, m, a.start + length + 9);
        }
    }
}

/* every byte replaced; and cut, so that it ends too early */
static void damaged(const uint8_t *bytes, size_t length)
{
    static const uint8_t others[] = {0x00, 0x01, 0x03, 0x7F, 0xFF};
    uint8_t m[LONGEST];
    size_t place, i;
    for (place = 0; place < length; place++) {
        for (i = 0; i < COUNT(others); i++) {
            memset(m, KEPT, sizeof m);
            memcpy(m, bytes, length);
            m[place] = others[i];
            fed("a byte replaced", &plain, m, length + 3);
        }
        fed("a header cut", &plain, bytes, place);
    }
}

/* what stands in a header with H's sections, and behind it: where each begins and ends, and its rounds */
static void parts(uint32_t version)
{
    const uint32_t suite = version == 1 ? 0x0178 : 0x0578;
    uint8_t m[LONGEST];
    const size_t n = header_of(m, version, H + 20, 14, H + 34, 14), context = version == 1 ? 20 : 35;
    const struct {
        const char *what;
        struct asked asked;
        size_t end;
        uint64_t rounds;
    } rows[] = {{"a context section", {CONTEXT, context, 0, BAFIROLEN_STRICT, 0, NUMBERS}, context + 14, 2},
                {"a context section, no table", {CONTEXT, context, 0, BAFIROLEN_TOLERANT, 0, 3}, context + 14, 2},
                {"a key section", {KEYS, context + 14, 0, 0, 0, NUMBERS}, context + 28, 7},
                {"a key section, no table", {KEYS, context + 14, 0, 0, 0, 5}, context + 28, 7},
                {"a value", {VALUE, context, 0, 0, 0, 0}, context + 14, 2},
                {"what is only authenticated", {ONLY_AUTHENTICATED, context, 0, 0, 0, 0}, context + 14, 2},
                {"a record", {RECORD, n, 0, 0, suite, 0}, version == 1 ? n + 28 : n + 16, version == 1 ? 2 : 1}};
    size_t i;
    memset(m + n, KEPT, sizeof m - n);
    for (i = 0; i < COUNT(rows); i++) {
        same(rows[i].what, fed(rows[i].what, &rows[i].asked, m, n + 40), rows[i].rounds);
        same(rows[i].what, is_short(rows[i].end - 1), 1);
        same(rows[i].what, is_short(rows[i].end), 0);
    }
}

/* many pairs take no more rounds than one; keys without an empty part take the most */
static void shaped(void)
{
    struct shape s = {1, 0, 0, SHUFFLED, NO_FAULT, BAFIROLEN_TODAY};
    for (s.version = 1; s.version <= 2; s.version++) {
        for (s.pairs = 1; s.pairs <= 15; s.pairs += 7) {
            for (s.keys = 1; s.keys <= 10; s.keys += 3) {
                const uint64_t rounds = BAFIROLEN_MOST_ROUNDS(s.keys) - (s.version == 1 ? 0 : 2);
                build(s);
                same("a header of many", fed("a header of many", &plain, body.bytes, body.length), rounds);
            }
        }
    }
}

/* frames of a length, whole and with each fault, read by their length and by another */
static void framed(void)
{
    struct asked a = {FRAMES, 0, 0, 0, 0, NUMBERS};
    uint32_t count;
    enum fault fault;
    for (count = 1; count <= 4; count++) {
        for (fault = NO_FAULT; fault <= MANY_CLAIMED; fault++) {
            build_frames(count, LONGEST_FRAME, fault);
            frames.bytes[frames.length] = KEPT;
            for (a.number = LONGEST_FRAME - 1; a.number <= LONGEST_FRAME + 1; a.number++) {
                const uint64_t rounds = fed("frames", &a, frames.bytes, frames.length + (fault == NO_FAULT));
                if (fault == NO_FAULT && a.number == LONGEST_FRAME) {
                    same("frames", told[frames.length].tail, frames.length);
                    same("the rounds of frames", rounds, BAFIROLEN_MOST_FRAME_ROUNDS(count));
                }
            }
        }
    }
}

int main(void)
{
    uint8_t m[BYTES];
    uint32_t version;
    macros();
    header("H", H, sizeof H, 17);
    for (version = 1; version <= 2; version++) {
        const uint64_t around = version == 1 ? 8 : 6;
        header("a header", m, header_of(m, version, H + 20, 14, H + 34, 14), around + 2 + 7);
        damaged(m, header_of(m, version, H + 20, 14, H + 34, 14));
        header("without pairs", m, bare_header(m, version, BAFIROLEN_TODAY), around + 1 + 7);
        header("in the old form", m, bare_header(m, version, BAFIROLEN_OLD), around + 2 + 7);
        header("a key of empty parts", m, header_in_form(m, version, BAFIROLEN_TODAY, "\0\1\0\0\0\0\0\0", 8), around + 1 + 4);
        parts(version);
    }
    shaped();
    framed();
    return compared();
}
