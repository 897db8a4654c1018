/*
 * A host in C: calls bafirolen_write_only_authenticated, as check_writers.c calls the other operations that write. What is wanted
 * was worked out by hand.
 *
 *     tools/archives
 *     gcc -std=c99 -O2 -Wall -Wextra -Iinclude hosts/c/check_only_authenticated.c target/staticlib/libbafirolen_c.a \
 *         -o target/check_only_authenticated
 */
#include "compare.h"

/* bytes as a string, and how many */
#define TEXT(string) (const uint8_t *)(string), sizeof(string) - 1
/* numbers in a row of a table, and how many of them are lent */
#define LENT(n, ...) {__VA_ARGS__}, n

/* three bytes; a section of five pairs out of order: b = w, ab = "", a = v, "" = e, the letter C3 A9 = x; and one byte */
static const uint8_t M[38] = {0xFF, 0xFF, 0xFF, 0x00, 0x20, 0x00, 0x05, 0x00, 0x01, 0x62, 0x00, 0x01, 0x77,
                              0x00, 0x02, 0x61, 0x62, 0x00, 0x00, 0x00, 0x01, 0x61, 0x00, 0x01, 0x76, 0x00,
                              0x00, 0x00, 0x01, 0x65, 0x00, 0x02, 0xC3, 0xA9, 0x00, 0x01, 0x78, 0xFF};
/* what the places of required keys lie in */
static const uint8_t text[6] = {0x7A, 0x61, 0x62, 0xC3, 0xA9, 0xFF};

static BafirolenWritten authenticate(const uint32_t *required, size_t n, size_t room)
{
    fresh();
    return bafirolen_write_only_authenticated(M, sizeof M, 3, text, sizeof text, required, n, out, room);
}

/* into every room up to the output's whole length: all of it, or none where it is too long */
static void in_every_room(const char *what, const uint32_t *required, size_t n, const uint8_t *image, size_t length)
{
    size_t room;
    for (room = 0; room <= BYTES; room++) {
        const BafirolenWritten w = authenticate(required, n, room);
        written_is(what, w, room < length ? BAFIROLEN_REFUSED_OUTPUT_TOO_SHORT : 0, room < length ? 0 : length);
        output_is(what, image, room < length ? 0 : length);
    }
}

static void images(void)
{
    static const struct {
        const char *what;
        uint32_t required[10];
        size_t n;
        const uint8_t *image;
        size_t length;
    } rows[] = {
        {"every key", LENT(10, 3, 2, 2, 1, 1, 2, 1, 1, 6, 0),
         TEXT("\0\5\0\0\0\1e\0\1a\0\1v\0\2ab\0\0\0\1b\0\1w\0\2\xC3\xA9\0\1x")},
        {"two keys, in another order than the section's", LENT(4, 1, 1, 2, 1), TEXT("\0\2\0\1a\0\1v\0\1b\0\1w")},
        {"two keys, in the section's order", LENT(4, 2, 1, 1, 1), TEXT("\0\2\0\1a\0\1v\0\1b\0\1w")},
        {"a key that begins another", LENT(4, 1, 2, 1, 1), TEXT("\0\2\0\1a\0\1v\0\2ab\0\0")},
        {"an empty value", LENT(2, 1, 2), TEXT("\0\1\0\2ab\0\0")},
        {"the empty key, behind the text's last byte", LENT(2, 6, 0), TEXT("\0\1\0\0\0\1e")},
        {"a key named twice, and one that is absent", LENT(8, 3, 2, 0, 1, 3, 2, 3, 2), TEXT("\0\1\0\2\xC3\xA9\0\1x")},
        {"keys that are absent: z, one that is begun by a key, one that is not UTF-8, one that begins a key",
         LENT(8, 0, 1, 1, 3, 5, 1, 3, 1), TEXT("")},
        {"no key", LENT(0, 0), TEXT("")}};
    size_t i;
    for (i = 0; i < COUNT(rows); i++) {
        in_every_room(rows[i].what, rows[i].required, rows[i].n, rows[i].image, rows[i].length);
    }
}

/* tested before the output's room, and of every place: the last row has a good one first */
static void refused_tables(void)
{
    static const struct {
        const char *what;
        uint32_t required[5];
        size_t n;
    } rows[] = {{"one number", LENT(1, 1)},
                {"three numbers", LENT(3, 1, 1, 2)},
                {"five numbers", LENT(5, 1, 1, 2, 1, 0)},
                {"a start behind the text", LENT(2, 6, 1)},
                {"an empty place behind the text", LENT(2, 7, 0)},
                {"an end behind the text", LENT(2, 5, 2)},
                {"an end of 33 bits", LENT(2, 4294967295u, 2)},
                {"the largest numbers", LENT(2, 4294967295u, 4294967295u)},
                {"a length of 32 bits", LENT(2, 1, 4294967295u)},
                {"a place outside behind one inside", LENT(4, 1, 1, 3, 4)}};
    size_t i;
    for (i = 0; i < COUNT(rows); i++) {
        written_is(rows[i].what, authenticate(rows[i].required, rows[i].n, 0), BAFIROLEN_REFUSED_REQUIRED_TABLE_OR_PLACE, 0);
        written_is(rows[i].what, authenticate(rows[i].required, rows[i].n, BYTES), BAFIROLEN_REFUSED_REQUIRED_TABLE_OR_PLACE, 0);
        output_is(rows[i].what, fresh_bytes, 0);
    }
}

/* the section is read first: what is wrong with it is said, though the table is odd and there is no room */
static void refused_sections(void)
{
    static const uint32_t odd[1] = {0};
    static const struct {
        const uint8_t *section;
        size_t n;
        uint64_t start, number, position;
    } rows[] = {{TEXT(""), 0, BAFIROLEN_REFUSED_SHORTAGE, 2},
                {TEXT("\0"), 0, BAFIROLEN_REFUSED_SHORTAGE, 2},
                {TEXT("\0\0"), 9, BAFIROLEN_REFUSED_SHORTAGE, 11},
                {TEXT("\0\0"), 4294967295u, BAFIROLEN_REFUSED_SHORTAGE, 4294967297u},
                {TEXT("\0\0"), 4294967296u, BAFIROLEN_REFUSED_NOT_ADDRESSABLE, 0},
                {TEXT("\0\0"), UINT64_MAX, BAFIROLEN_REFUSED_NOT_ADDRESSABLE, 0},
                {TEXT("\0\6\0\1\0\0\0"), 0, BAFIROLEN_REFUSED_SHORTAGE, 8},
                {TEXT("\0\1\0"), 0, BAFIROLEN_REFUSED_PAST_SECTION, 0},
                {TEXT("\0\1\0\0"), 0, BAFIROLEN_REFUSED_PAST_SECTION, 0},
                {TEXT("\0\4\0\1\0\5"), 0, BAFIROLEN_REFUSED_PAST_SECTION, 0},
                {TEXT("\0\4\0\1\0\5abcde\0\0"), 0, BAFIROLEN_REFUSED_PAST_SECTION, 0},
                {TEXT("\xFF\0\6\0\1\0\0\0\1"), 1, BAFIROLEN_REFUSED_PAST_SECTION, 0},
                {TEXT("\0\2\0\1"), 0, BAFIROLEN_REFUSED_COUNT_IN_EMPTY_CONTEXT, 0},
                {TEXT("\0\3\0\0\0"), 0, BAFIROLEN_REFUSED_NO_COUNT_IN_CONTEXT, 0},
                {TEXT("\0\10\0\1\0\2\xC0\x80\0\0"), 0, BAFIROLEN_REFUSED_KEY_NOT_UTF8, 0},
                {TEXT("\0\10\0\1\0\0\0\2\xC0\x80"), 0, BAFIROLEN_REFUSED_VALUE_NOT_UTF8, 0},
                {TEXT("\0\12\0\2\0\0\0\0\0\0\0\0"), 0, BAFIROLEN_REFUSED_KEY_SEEN_BEFORE, 0},
                {TEXT("\0\7\0\1\0\0\0\0\0"), 0, BAFIROLEN_REFUSED_CONTEXT_LENGTH, 0}};
    BafirolenWritten w;
    size_t i;
    fresh();
    for (i = 0; i < COUNT(rows); i++) {
        w = bafirolen_write_only_authenticated(rows[i].section, rows[i].n, rows[i].start, text, 0, odd, 1, out, 0);
        written_at("a section refused", w, rows[i].number, rows[i].position, 0);
        w = bafirolen_write_only_authenticated(rows[i].section, rows[i].n, rows[i].start, text, 0, odd, 0, out, BYTES);
        written_at("a section refused, nothing required", w, rows[i].number, rows[i].position, 0);
        output_is("a section refused", fresh_bytes, 0);
    }
}

/* no pair has the key, so nothing is written, in either form; the table is tested all the same */
static void empty_contexts(void)
{
    static const uint8_t forms[2][4] = {{0, 0, 0xFF, 0xFF}, {0, 2, 0, 0}};
    static const uint32_t a_and_empty[4] = {1, 1, 0, 0};
    BafirolenWritten w;
    size_t i;
    fresh();
    for (i = 0; i < 2; i++) {
        w = bafirolen_write_only_authenticated(forms[i], 4, 0, text, sizeof text, a_and_empty, 4, out, BYTES);
        written_is("an empty context", w, 0, 0);
        w = bafirolen_write_only_authenticated(forms[i], 4, 0, text, sizeof text, a_and_empty, 4, out, 0);
        written_is("an empty context, no room", w, 0, 0);
        w = bafirolen_write_only_authenticated(forms[i], 4, 0, text, sizeof text, a_and_empty, 3, out, BYTES);
        written_is("an empty context, three numbers", w, BAFIROLEN_REFUSED_REQUIRED_TABLE_OR_PLACE, 0);
        output_is("an empty context", fresh_bytes, 0);
    }
}

/* one pair of 65,533 bytes, whose key is lent as its own place; with one byte more it goes past its section */
static void longest(void)
{
    static uint8_t m[65538], image[65536];
    static const uint32_t required[2] = {6, 65529};
    BafirolenWritten w;
    memset(m, 'a', sizeof m);
    memcpy(m, "\xFF\xFF\0\1\xFF\xF9", 6);
    memset(m + 65535, 0, 3);
    memset(image, KEPT, sizeof image);
    w = bafirolen_write_only_authenticated(m, 65537, 0, m, sizeof m, required, 2, image, 65534);
    written_is("the longest, no room", w, BAFIROLEN_REFUSED_OUTPUT_TOO_SHORT, 0);
    same("the longest, no room", image[0], KEPT);
    w = bafirolen_write_only_authenticated(m, 65537, 0, m, sizeof m, required, 2, image, 65535);
    written_is("the longest", w, 0, 65535);
    same_bytes("the longest", image, m + 2, 65535);
    same("behind the longest", image[65535], KEPT);
    m[5] = 0xFA;
    m[65535] = 'a';
    w = bafirolen_write_only_authenticated(m, 65538, 0, m, sizeof m, required, 2, image, sizeof image);
    written_is("a longer one", w, BAFIROLEN_REFUSED_PAST_SECTION, 0);
    same_bytes("a longer one", image, "\0\1\xFF\xF9", 4);
}

int main(void)
{
    images();
    refused_tables();
    refused_sections();
    empty_contexts();
    longest();
    return compared();
}
