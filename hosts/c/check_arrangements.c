/*
 * A host in C: one draft that is put together in several ways. Two lists of pairs are joined, a list is rearranged, and the keys
 * of two stations are dropped in either order (in_turn.h). What is wanted was worked out by hand. Each part is an allocation of
 * exactly the bytes that are lent. Writes `compared N cases`; a difference is written to standard error, and the exit status is 1.
 *
 *     tools/archives
 *     gcc -std=c99 -O2 -Wall -Wextra -Iinclude hosts/c/check_arrangements.c target/staticlib/libbafirolen_c.a \
 *         -o target/check_arrangements
 *     valgrind --error-exitcode=1 target/check_arrangements
 */
#include "in_turn.h"

/* numbers in a row of a table, and how many of them are lent */
#define LENT(n, ...) {__VA_ARGS__}, n
/* bytes as a string, and how many */
#define TEXT(string) string, sizeof(string) - 1

/* a table's places lie in `text`, which is lent already; the section, in an output of just its length, or the refusal */
static const uint8_t *section_written(const char *what, const uint8_t *text, size_t text_len, const uint32_t *table, size_t n,
                                      uint64_t number, const void *wanted, size_t length)
{
    static uint8_t filled[65600];
    uint8_t *o;
    memset(filled, KEPT, sizeof filled);
    o = lend(filled, length);
    written_is(what, bafirolen_write_aad_section(text, text_len, lend_const(table, n * sizeof *table), n, o, length), number,
               number == 0 ? length : 0);
    same_bytes(what, o, number == 0 ? wanted : filled, length);
    return o;
}

/* two lists, each of which is accepted, and what they are joined */
struct join {
    const char *what;
    uint32_t first[8];
    size_t first_n;
    uint32_t second[8];
    size_t second_n;
    uint64_t number;
    const void *sections[3]; /* of the first, of the second and of both, which is only a length where it is refused */
    size_t lengths[3];
};

/* an empty list has no entries: its section ends before they would begin */
static size_t entries_of(size_t section_length)
{
    return section_length < 4 ? 0 : section_length - 4;
}

static void join(const struct join *j, const uint8_t *text, size_t text_len)
{
    const uint8_t *t = lend_const(text, text_len), *one, *two, *both;
    const size_t ones = entries_of(j->lengths[0]), twos = entries_of(j->lengths[1]);
    uint32_t table[16];
    memcpy(table, j->first, j->first_n * sizeof *table);
    memcpy(table + j->first_n, j->second, j->second_n * sizeof *table);
    one = section_written(j->what, t, text_len, j->first, j->first_n, 0, j->sections[0], j->lengths[0]);
    two = section_written(j->what, t, text_len, j->second, j->second_n, 0, j->sections[1], j->lengths[1]);
    both = section_written(j->what, t, text_len, table, j->first_n + j->second_n, j->number, j->sections[2], j->lengths[2]);
    if (j->number == 0 && ones + twos > 0) {
        same(j->what, j->lengths[2], 4 + ones + twos);
        same_bytes(j->what, both + 4, one + (ones > 0 ? 4 : 0), ones);
        same_bytes(j->what, both + 4 + ones, two + (twos > 0 ? 4 : 0), twos);
    }
    let_go();
}

/* tone, b, cy, lang, p; la is the beginning of lang */
static const uint8_t text[12] = {'t', 'o', 'n', 'e', 'b', 'c', 'y', 'l', 'a', 'n', 'g', 'p'};

#define TONE "\0\4tone\0\1b"
#define LANG "\0\4lang\0\2cy"
#define LA "\0\2la\0\0"
#define NONE "\0\0\0\1p"

static void joined(void)
{
    static const struct join rows[] = {
        {"one and one", LENT(4, 0, 4, 4, 1), LENT(4, 7, 4, 5, 2), 0,
         {"\0\13\0\1" TONE, "\0\14\0\1" LANG, "\0\25\0\2" TONE LANG}, {13, 14, 23}},
        {"the other way about", LENT(4, 7, 4, 5, 2), LENT(4, 0, 4, 4, 1), 0,
         {"\0\14\0\1" LANG, "\0\13\0\1" TONE, "\0\25\0\2" LANG TONE}, {14, 13, 23}},
        {"two and two, whose keys begin one another", LENT(8, 7, 4, 5, 2, 12, 0, 11, 1), LENT(8, 7, 2, 0, 0, 0, 4, 4, 1), 0,
         {"\0\21\0\2" LANG NONE, "\0\21\0\2" LA TONE, "\0\40\0\4" LANG NONE LA TONE}, {19, 19, 34}},
        {"none and one", LENT(0, 0), LENT(4, 7, 2, 0, 0), 0, {"\0\0", "\0\10\0\1" LA, "\0\10\0\1" LA}, {2, 10, 10}},
        {"one and none", LENT(4, 7, 2, 0, 0), LENT(0, 0), 0, {"\0\10\0\1" LA, "\0\0", "\0\10\0\1" LA}, {10, 2, 10}},
        {"none and none", LENT(0, 0), LENT(0, 0), 0, {"\0\0", "\0\0", "\0\0"}, {2, 2, 2}},
        {"a pair again", LENT(4, 0, 4, 4, 1), LENT(4, 0, 4, 4, 1), BAFIROLEN_REFUSED_KEY_SEEN_BEFORE,
         {"\0\13\0\1" TONE, "\0\13\0\1" TONE, NULL}, {13, 13, 22}},
        {"a key again, with another value and behind another pair", LENT(8, 7, 2, 0, 0, 7, 4, 5, 2),
         LENT(8, 0, 4, 4, 1, 7, 2, 11, 1), BAFIROLEN_REFUSED_KEY_SEEN_BEFORE,
         {"\0\22\0\2" LA LANG, "\0\22\0\2" TONE "\0\2la\0\1p", NULL}, {20, 20, 36}},
        {"the empty key again", LENT(4, 0, 0, 11, 1), LENT(4, 12, 0, 11, 1), BAFIROLEN_REFUSED_KEY_SEEN_BEFORE,
         {"\0\7\0\1" NONE, "\0\7\0\1" NONE, NULL}, {9, 9, 14}}};
    size_t i;
    for (i = 0; i < COUNT(rows); i++) {
        join(&rows[i], text, sizeof text);
    }
}

/* a section of pairs whose keys are these letters, and whose values so many times v: its length */
static size_t of_values(uint8_t *m, const char *keys, const size_t *lengths, size_t count)
{
    size_t i, n = 4;
    for (i = 0; i < count; i++) {
        n = append(m, n, "\0\1", 2);
        m[n++] = (uint8_t)keys[i];
        m[n++] = (uint8_t)(lengths[i] >> 8);
        m[n++] = (uint8_t)lengths[i];
        memset(m + n, 'v', lengths[i]);
        n += lengths[i];
    }
    m[0] = (uint8_t)((n - 2) >> 8);
    m[1] = (uint8_t)(n - 2);
    m[2] = 0;
    m[3] = (uint8_t)count;
    return n;
}

/* all that a section holds, 65,533 bytes, and a byte more: each list has room, and both have none; a key again is told before */
static void joined_longest(void)
{
    static const size_t firsts[] = {0, 255, 40000, 65523};
    static uint8_t letters[65526], sections[3][65600];
    size_t i, more;
    memset(letters, 'v', sizeof letters);
    letters[0] = 'a';
    letters[1] = 'b';
    for (i = 0; i < COUNT(firsts); i++) {
        for (more = 0; more < 2; more++) {
            const size_t values[2] = {firsts[i], 65523 - firsts[i] + more};
            struct join j = {"the longest", LENT(4, 0, 1, 2, 0), LENT(4, 1, 1, 2, 0), 0, {NULL, NULL, NULL}, {0, 0, 0}};
            size_t k;
            j.first[3] = (uint32_t)values[0];
            j.second[3] = (uint32_t)values[1];
            j.lengths[0] = of_values(sections[0], "a", values, 1);
            j.lengths[1] = of_values(sections[1], "b", values + 1, 1);
            j.lengths[2] = of_values(sections[2], "ab", values, 2);
            for (k = 0; k < 3; k++) {
                j.sections[k] = sections[k];
            }
            same("the longest", j.lengths[2], 65537 + more);
            j.number = more == 0 ? 0 : BAFIROLEN_REFUSED_PAIRS_TOO_LONG;
            join(&j, letters, sizeof letters);
            j.second[0] = 0;
            sections[1][6] = 'a';
            j.number = BAFIROLEN_REFUSED_KEY_SEEN_BEFORE;
            join(&j, letters, sizeof letters);
        }
    }
}

/* three pairs in all of their orders; a body with them, and what is only authenticated of it */
static const struct {
    uint32_t table[4];
    const char *entries;
    size_t length;
} three[] = {{{0, 4, 4, 1}, TEXT(TONE)}, {{7, 4, 5, 2}, TEXT(LANG)}, {{7, 2, 12, 0}, TEXT(LA)}};
static const size_t orders[6][3] = {{0, 1, 2}, {0, 2, 1}, {1, 0, 2}, {1, 2, 0}, {2, 0, 1}, {2, 1, 0}};

/* the body of a version with this table of pairs, measured, and written into an output of just its length, which is answered */
static const uint8_t *body_written(uint32_t version, const uint32_t *table, const uint8_t *wanted, size_t length)
{
    static const uint32_t p_and_tone[6] = {11, 1, 0, 0, 0, 4};
    const size_t id_len = version == 1 ? 16 : 32, data_len = version == 1 ? 0 : 32;
    const BafirolenNumbers numbers = version == 1 ? bafirolen_v1_numbers(0x0178, BAFIROLEN_FRAMED, 4096)
                                                  : bafirolen_v2_numbers(0x0578, BAFIROLEN_FRAMED, 4096);
    const uint8_t *id = lend_const(H + 4, id_len), *data = lend_const(H + 20, data_len);
    const uint8_t *t = lend_const(text, sizeof text);
    const uint32_t *three_pairs = lend_const(table, 12 * sizeof *table), *key = lend_const(p_and_tone, sizeof p_and_tone);
    uint8_t *o = lend(wanted, length);
    BafirolenWritten w =
        bafirolen_header_body_len(numbers, id, id_len, data, data_len, t, sizeof text, three_pairs, 12, key, 6);
    written_is("a body measured", w, 0, length);
    memset(o, KEPT, length);
    w = bafirolen_write_header_body(numbers, id, id_len, data, data_len, t, sizeof text, three_pairs, 12, key, 6, o, length);
    written_is("a body rearranged", w, 0, length);
    same_bytes("a body rearranged", o, wanted, length);
    return o;
}

/* lang and la are required, in either order, once and again, with others that no pair has: t, lan, and p */
static void authenticated(const uint8_t *message, size_t length, size_t start)
{
    static const struct {
        uint32_t required[10];
        size_t n;
    } rows[] = {{LENT(4, 7, 4, 7, 2)},
                {LENT(4, 7, 2, 7, 4)},
                {LENT(8, 7, 2, 7, 4, 7, 2, 0, 1)},
                {LENT(10, 7, 4, 7, 3, 11, 1, 7, 4, 7, 2)}};
    static const char wanted[] = "\0\2" LA LANG;
    size_t i;
    for (i = 0; i < COUNT(rows); i++) {
        const size_t n = rows[i].n, room = sizeof wanted - 1;
        uint8_t *o = lend(wanted, room);
        memset(o, KEPT, room);
        written_is("only authenticated",
                   bafirolen_write_only_authenticated(lend_const(message, length), length, start, lend_const(text, sizeof text),
                                                      sizeof text, lend_const(rows[i].required, n * sizeof(uint32_t)), n, o, room),
                   0, room);
        same_bytes("only authenticated", o, wanted, room);
        let_go();
    }
}

static void rearranged(void)
{
    uint8_t first[128], bytes[128], section[64];
    uint32_t version, table[12];
    size_t i, k, n, length;
    for (version = 1; version <= 2; version++) {
        const size_t start = version == 1 ? 20 : 35;
        for (i = 0; i < COUNT(orders); i++) {
            n = append(section, 0, "\0\33\0\3", 4);
            for (k = 0; k < 3; k++) {
                memcpy(table + 4 * k, three[orders[i][k]].table, 4 * sizeof *table);
                n = append(section, n, three[orders[i][k]].entries, three[orders[i][k]].length);
            }
            section_written("a list rearranged", lend_const(text, sizeof text), sizeof text, table, 12, 0, section, n);
            let_go();
            length = header_of(bytes, version, section, n, TEXT("\0\1\0\1p\0\0\0\4tone"));
            memcpy(bytes, body_written(version, table, bytes, length), length);
            let_go();
            if (i == 0) {
                memcpy(first, bytes, length);
            }
            same("as long a section", n, 29);
            same_bytes("before the entries", bytes, first, start + 4);
            same_bytes("behind the entries", bytes + start + 29, first + start + 29, length - start - 29);
            authenticated(section, n, 0);
            authenticated(bytes, length, start);
        }
    }
}

int main(void)
{
    joined();
    joined_longest();
    rearranged();
    dropped();
    return compared();
}
