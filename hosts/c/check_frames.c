/*
 * A host in C: calls bafirolen_read_frames, as check_readers.c calls the other operations that read; check_frames_written.c has the
 * writer of frames. What is wanted was worked out by hand.
 *
 *     tools/archives
 *     gcc -std=c99 -O2 -Wall -Wextra -Iinclude hosts/c/check_frames.c target/staticlib/libbafirolen_c.a -o target/check_frames
 */
#include "compare.h"

/* what is asked: frames of a length at a start, into a table of so many numbers */
struct asked {
    uint64_t start;
    uint32_t frame_length;
    size_t room;
};

static BafirolenSection ask(const uint8_t *m, size_t n, struct asked a)
{
    fresh();
    return bafirolen_read_frames(m, n, a.start, a.frame_length, keys, a.room);
}

/* a refusal changes no number of the table */
static void refused_by(const char *what, const uint8_t *m, size_t n, struct asked a, uint64_t number, uint64_t position)
{
    section_is(what, ask(m, n, a), number, position, 0, 0);
    table_is(what, keys, fresh_numbers, 0);
}

static void accepted(const char *what, const uint8_t *m, size_t n, struct asked a, const uint32_t *table, uint64_t count,
                     uint64_t tail)
{
    section_is(what, ask(m, n, a), 0, 0, count, tail);
    table_is(what, keys, table, BAFIROLEN_NUMBERS_PER_FRAME * count);
}

/* the two frames at a start, cut at every byte: what is wanted ends where the next part does */
static void cuts(void)
{
    static const uint64_t ends[] = {4, 16, 19, 35, 39, 43, 55, 59, 61, 77};
    uint8_t m[5 + sizeof RUN];
    uint32_t moved[12];
    uint64_t start;
    size_t cut, i;
    for (start = 0; start <= 5; start += 5) {
        memset(m, KEPT, sizeof m);
        memcpy(m + start, RUN, sizeof RUN);
        for (cut = 0; cut < sizeof RUN; cut++) {
            const struct asked a = {start, 3, NUMBERS};
            for (i = 0; ends[i] <= cut; i++) {
            }
            refused_by("a cut", m, start + cut, a, BAFIROLEN_REFUSED_SHORTAGE, start + ends[i]);
        }
        for (i = 0; i < 12; i++) {
            moved[i] = RUN_table[i] + (i % 2 == 0 ? (uint32_t)start : 0);
        }
        for (i = 0; i <= 5 - start; i++) {
            const struct asked a = {start, 3, NUMBERS};
            accepted("both frames", m, start + sizeof RUN + i, a, moved, 2, start + 77);
        }
    }
}

/* one byte changed; the bytes behind are there or not, since what is tested first decides */
static void changed(void)
{
    static const struct {
        const char *what;
        size_t at;
        uint8_t byte;
        size_t length; /* the message is cut right behind what is tested */
        uint64_t number;
    } rows[] = {{"number 0", 3, 0, 4, BAFIROLEN_REFUSED_SEQUENCE_NUMBER},
                {"number 2 first", 3, 2, 4, BAFIROLEN_REFUSED_SEQUENCE_NUMBER},
                {"number 257", 2, 1, 4, BAFIROLEN_REFUSED_SEQUENCE_NUMBER},
                {"number 65,537", 1, 1, 4, BAFIROLEN_REFUSED_SEQUENCE_NUMBER},
                {"number 2,147,483,649", 0, 0x80, 4, BAFIROLEN_REFUSED_SEQUENCE_NUMBER},
                {"no mark", 35, 0xFE, 39, BAFIROLEN_REFUSED_SEQUENCE_NUMBER},
                {"no mark", 38, 0x7F, 39, BAFIROLEN_REFUSED_SEQUENCE_NUMBER},
                {"a final number again", 42, 1, 43, BAFIROLEN_REFUSED_SEQUENCE_NUMBER},
                {"a final number too large", 42, 3, 43, BAFIROLEN_REFUSED_SEQUENCE_NUMBER},
                {"a final number that is large", 39, 1, 43, BAFIROLEN_REFUSED_SEQUENCE_NUMBER},
                {"a final content of 4", 58, 4, 59, BAFIROLEN_REFUSED_FINAL_CONTENT_TOO_LONG},
                {"a final content of 258", 57, 1, 59, BAFIROLEN_REFUSED_FINAL_CONTENT_TOO_LONG},
                {"a final content of 65,538", 56, 1, 59, BAFIROLEN_REFUSED_FINAL_CONTENT_TOO_LONG},
                {"a final content of 4,278,190,082", 55, 0xFF, 59, BAFIROLEN_REFUSED_FINAL_CONTENT_TOO_LONG}};
    static const struct asked some = {0, 3, NUMBERS}, none = {0, 3, 0};
    uint8_t m[sizeof RUN];
    size_t i;
    for (i = 0; i < COUNT(rows); i++) {
        memcpy(m, RUN, sizeof m);
        m[rows[i].at] = rows[i].byte;
        refused_by(rows[i].what, m, sizeof m, some, rows[i].number, 0);
        refused_by(rows[i].what, m, rows[i].length, some, rows[i].number, 0);
        refused_by(rows[i].what, m, rows[i].length, none, rows[i].number, 0);
    }
}

/* of every length that the final content can be said to have, and one more: the tag begins behind it */
static void final_lengths(void)
{
    static const struct asked some = {0, 3, 12};
    uint8_t m[sizeof RUN + 1];
    uint32_t table[12], length;
    memcpy(m, RUN, sizeof RUN);
    m[sizeof RUN] = KEPT;
    memcpy(table, RUN_table, sizeof table);
    for (length = 0; length <= 3; length++) {
        m[58] = (uint8_t)length;
        table[9] = length;
        table[10] = 59 + length;
        accepted("a final content", m, 75u + length, some, table, 2, 75u + length);
        refused_by("a final content cut", m, 74u + length, some, BAFIROLEN_REFUSED_SHORTAGE, 75u + length);
    }
    m[58] = (uint8_t)length;
    refused_by("a final content of 4", m, sizeof m, some, BAFIROLEN_REFUSED_FINAL_CONTENT_TOO_LONG, 0);
}

/* a final frame in the middle is the last, and a frame alone is final; the mark's own number is tested too */
static void ends(void)
{
    static const uint8_t marks[8] = {0xFF, 0xFF, 0xFF, 0xFF, 0xFF, 0xFF, 0xFF, 0xFF};
    static const uint32_t one[6] = {8, 12, 24, 2, 26, 16};
    static const struct asked some = {0, 3, NUMBERS};
    uint8_t m[2 * sizeof RUN];
    size_t n = append(m, 0, RUN, sizeof RUN);
    n = append(m, n, RUN, sizeof RUN);
    accepted("frames, and others behind them", m, n, some, RUN_table, 2, 77);
    memcpy(m, RUN + 35, 42);
    m[7] = 1;
    accepted("a final frame", m, 42, some, one, 1, 42);
    accepted("a final frame, and others behind it", m, n, some, one, 1, 42);
    refused_by("regular frames alone", RUN, 35, some, BAFIROLEN_REFUSED_SHORTAGE, 39);
    refused_by("two marks", marks, 8, some, BAFIROLEN_REFUSED_SEQUENCE_NUMBER, 0);
    memcpy(m, RUN, 35);
    memcpy(m + 35, RUN, 35);
    refused_by("a frame twice", m, 70, some, BAFIROLEN_REFUSED_SEQUENCE_NUMBER, 0);
}

/* by another frame length the next number is read elsewhere: BF FF FF FF, or FF FF FF 00 */
static void lengths_and_starts(void)
{
    static const struct {
        const char *what;
        size_t length;
        struct asked asked;
        uint64_t number, position;
    } rows[] = {{"a shorter length", 77, {0, 2, NUMBERS}, BAFIROLEN_REFUSED_SEQUENCE_NUMBER, 0},
                {"a longer length", 77, {0, 4, NUMBERS}, BAFIROLEN_REFUSED_SEQUENCE_NUMBER, 0},
                {"the longest length", 77, {0, UINT32_MAX, NUMBERS}, BAFIROLEN_REFUSED_SHORTAGE, 4294967311u},
                {"the final frame first", 77, {35, 3, NUMBERS}, BAFIROLEN_REFUSED_SEQUENCE_NUMBER, 0},
                {"a start at the end", 77, {77, 3, NUMBERS}, BAFIROLEN_REFUSED_SHORTAGE, 81},
                {"a start past the end", 77, {100, 3, NUMBERS}, BAFIROLEN_REFUSED_SHORTAGE, 104},
                {"the last start", 77, {4294967295u, 3, NUMBERS}, BAFIROLEN_REFUSED_SHORTAGE, 4294967299u},
                {"a start of 33 bits", 77, {4294967296u, 3, NUMBERS}, BAFIROLEN_REFUSED_NOT_ADDRESSABLE, 0},
                {"1 before 20", 77, {UINT64_MAX, 0, 0}, BAFIROLEN_REFUSED_NOT_ADDRESSABLE, 0},
                {"length 0", 77, {0, 0, NUMBERS}, BAFIROLEN_REFUSED_FRAME_LENGTH, 0},
                {"20 before 2", 0, {0, 0, 0}, BAFIROLEN_REFUSED_FRAME_LENGTH, 0},
                {"20 before 34", 77, {35, 0, 0}, BAFIROLEN_REFUSED_FRAME_LENGTH, 0},
                {"2 before 23", 76, {0, 3, 11}, BAFIROLEN_REFUSED_SHORTAGE, 77}};
    size_t i;
    for (i = 0; i < COUNT(rows); i++) {
        refused_by(rows[i].what, RUN, rows[i].length, rows[i].asked, rows[i].number, rows[i].position);
    }
}

/* tables of every length; and of the length that holds whatever stands in so many bytes, by hand */
static void tables(void)
{
    struct asked a = {0, 3, 0};
    for (a.room = 0; a.room < 12; a.room++) {
        refused_by("a table too short", RUN, sizeof RUN, a, BAFIROLEN_REFUSED_KEY_TABLE_TOO_SHORT, 0);
    }
    for (; a.room <= NUMBERS; a.room++) {
        accepted("a table", RUN, sizeof RUN, a, RUN_table, 2, 77);
    }
    same("77 bytes, 35 a frame", bafirolen_frame_table_len(77, 3), 18);
    same("no bytes", bafirolen_frame_table_len(0, 0), 6);
    same("31 bytes", bafirolen_frame_table_len(31, 0), 6);
    same("32 bytes", bafirolen_frame_table_len(32, 0), 12);
    same("4 GiB of the shortest frames", bafirolen_frame_table_len(4294967295u, 1), 780903150);
    same("4 GiB of the longest frames", bafirolen_frame_table_len(4294967295u, UINT32_MAX), 6);
    same("a byte more than a frame's", bafirolen_frame_table_len(4294967327u, UINT32_MAX), 12);
    same("the most", bafirolen_frame_table_len(UINT64_MAX, 0), 3458764513820540928u);
}

/* from a header to its frames, as a player goes */
static void behind_a_header(void)
{
    uint8_t m[58 + 28 + sizeof RUN];
    BafirolenBody b;
    BafirolenAuth r;
    BafirolenSection s;
    size_t i;
    memcpy(m, H, 58);
    memcpy(m + 54, "\0\0\0\3", 4);
    memset(m + 58, KEPT, 28);
    memcpy(m + 86, RUN, sizeof RUN);
    fresh();
    b = bafirolen_read_header_body(m, sizeof m, 0, BAFIROLEN_EITHER, BAFIROLEN_STRICT, BAFIROLEN_NO_MAX, 0, pairs, NUMBERS, keys,
                                   NUMBERS);
    same("framed", b.number == 0 && b.numbers.contentType == BAFIROLEN_FRAMED, 1);
    r = bafirolen_read_header_auth_tag(m, sizeof m, b.tail, b.numbers.suite);
    same("its record", r.number == 0 && r.tail == 86, 1);
    fresh();
    s = bafirolen_read_frames(m, sizeof m, r.tail, b.numbers.frameLength, keys, NUMBERS);
    section_is("its frames", s, 0, 0, 2, sizeof m);
    for (i = 0; i < 2; i++) {
        const uint32_t *frame = keys + BAFIROLEN_NUMBERS_PER_FRAME * i;
        same("an IV", m[frame[0]] == (i == 0 ? 0xA0 : 0xC0) && frame[1] == BAFIROLEN_IV_LEN, 1);
        same_bytes("a content", m + frame[2], i == 0 ? "abc" : "de", frame[3]);
        same("a tag", m[frame[4]] == (i == 0 ? 0xB0 : 0xD0) && frame[5] == BAFIROLEN_TAG_LEN, 1);
    }
}

int main(void)
{
    cuts();
    changed();
    final_lengths();
    ends();
    lengths_and_starts();
    tables();
    behind_a_header();
    return compared();
}
