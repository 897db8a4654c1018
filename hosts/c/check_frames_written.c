/*
 * A host in C: how long frames are, asked before they are written, and frames written, each part an allocation of exactly the bytes
 * that are lent: into an allocation of just their length, into one of a byte more, which keeps it, and into one of a byte less,
 * which is refused by 28; and what the length is refused by, the writer answers without room and with plenty. What is written is
 * read again. The small images were worked out by hand. Writes `compared N cases`; a difference is written to standard error, and
 * the exit status is 1.
 *
 *     tools/archives
 *     gcc -std=c99 -O2 -Wall -Wextra -Iinclude hosts/c/check_frames_written.c target/staticlib/libbafirolen_c.a -o target/written
 *     valgrind --error-exitcode=1 target/written
 */
#include "frames.h"
#include "lending.h"

/* what the writer is lent beside the output */
struct request {
    uint32_t frame_length;
    const uint8_t *text;
    size_t text_len;
    const uint32_t *frames;
    size_t frames_len;
};

static struct request lend_all(struct request r)
{
    r.text = lend_const(r.text, r.text_len);
    r.frames = lend_const(r.frames, r.frames_len * sizeof *r.frames);
    return r;
}

static BafirolenWritten measured(struct request r)
{
    return bafirolen_frames_len(r.frame_length, r.text, r.text_len, r.frames, r.frames_len);
}

static BafirolenWritten written(struct request r, uint8_t *o, size_t room)
{
    return bafirolen_write_frames(r.frame_length, r.text, r.text_len, r.frames, r.frames_len, o, room);
}

#include "measured.h"

/* what was written is read to its end, as the parts that it was written from */
static void reads_back(const char *what, struct request r, const uint8_t *image, size_t length)
{
    uint32_t *t = malloc(r.frames_len * sizeof *t);
    size_t i;
    int parts = 1;
    if (t == NULL) {
        abort();
    }
    section_is(what, bafirolen_read_frames(image, length, 0, r.frame_length, t, r.frames_len), 0, 0, r.frames_len / 6, length);
    for (i = 0; i < r.frames_len; i += 2) {
        parts = parts && t[i + 1] == r.frames[i + 1] && memcmp(image + t[i], r.text + r.frames[i], t[i + 1]) == 0;
    }
    same(what, (uint64_t)parts, 1);
    free(t);
}

static void takes(const char *what, struct request r, const uint8_t *image, size_t length)
{
    r = lend_all(r);
    fits(what, r, image, length);
    reads_back(what, r, image, length);
    let_go();
}

/* an IV to 12, a tag to 28, and letters */
static const uint8_t TEXT[34] = {0xA0, 0xA1, 0xA2, 0xA3, 0xA4, 0xA5, 0xA6, 0xA7, 0xA8, 0xA9, 0xAA, 0xAB,
                                 0xB0, 0xB1, 0xB2, 0xB3, 0xB4, 0xB5, 0xB6, 0xB7, 0xB8, 0xB9, 0xBA, 0xBB, 0xBC, 0xBD, 0xBE, 0xBF,
                                 'a',  'b',  'c',  'd',  'e',  'f'};

#define IV "\xA0\xA1\xA2\xA3\xA4\xA5\xA6\xA7\xA8\xA9\xAA\xAB"
#define TAG "\xB0\xB1\xB2\xB3\xB4\xB5\xB6\xB7\xB8\xB9\xBA\xBB\xBC\xBD\xBE\xBF"

static void images(void)
{
    static const uint32_t one[6] = {0, 12, 34, 0, 12, 16}, full[6] = {0, 12, 28, 4, 12, 16};
    static const uint32_t two[12] = {0, 12, 30, 4, 12, 16, 0, 12, 28, 3, 12, 16};
    static const uint32_t three[18] = {0, 12, 28, 1, 12, 16, 0, 12, 28, 1, 12, 16, 0, 12, 33, 1, 12, 16};
    static const uint32_t overlapping[6] = {1, 12, 10, 5, 13, 16};
    static const struct {
        const char *what;
        struct request r;
        const char *image;
        size_t length;
    } rows[] = {
        {"a final frame of nothing", {4, TEXT, 34, one, 6}, "\xFF\xFF\xFF\xFF\0\0\0\1" IV "\0\0\0\0" TAG, 40},
        {"a full final frame", {4, TEXT, 34, full, 6}, "\xFF\xFF\xFF\xFF\0\0\0\1" IV "\0\0\0\4" "abcd" TAG, 44},
        {"a final frame of a long length", {UINT32_MAX, TEXT, 34, full, 6},
         "\xFF\xFF\xFF\xFF\0\0\0\1" IV "\0\0\0\4" "abcd" TAG, 44},
        {"two frames", {4, TEXT, 34, two, 12},
         "\0\0\0\1" IV "cdef" TAG "\xFF\xFF\xFF\xFF\0\0\0\2" IV "\0\0\0\3" "abc" TAG, 79},
        {"three frames", {1, TEXT, 34, three, 18},
         "\0\0\0\1" IV "a" TAG "\0\0\0\2" IV "a" TAG "\xFF\xFF\xFF\xFF\0\0\0\3" IV "\0\0\0\1" "f" TAG, 107},
        {"parts that overlap", {5, TEXT, 34, overlapping, 6},
         "\xFF\xFF\xFF\xFF\0\0\0\1" "\xA1\xA2\xA3\xA4\xA5\xA6\xA7\xA8\xA9\xAA\xAB\xB0" "\0\0\0\5" "\xAA\xAB\xB0\xB1\xB2"
         "\xB1\xB2\xB3\xB4\xB5\xB6\xB7\xB8\xB9\xBA\xBB\xBC\xBD\xBE\xBF" "a", 45},
        {"frames that were read", {3, RUN, sizeof RUN, RUN_table, 12}, (const char *)RUN, sizeof RUN}};
    size_t i;
    for (i = 0; i < COUNT(rows); i++) {
        takes(rows[i].what, rows[i].r, (const uint8_t *)rows[i].image, rows[i].length);
    }
}

/* two frames of 4 bytes and a final one of 3, with one or two numbers of the table changed: of two faults the first decides */
static void refusals(void)
{
    static const uint32_t sound[18] = {0, 12, 28, 4, 12, 16, 0, 12, 30, 4, 12, 16, 0, 12, 28, 3, 12, 16};
    static const struct {
        const char *what;
        uint32_t frame_length;
        size_t numbers, at, other;
        uint32_t is, other_is;
        uint64_t number;
    } rows[] = {{"length 0", 0, 18, 0, 0, 0, 0, 20}, {"length 0, no frame", 0, 0, 0, 0, 0, 0, 20},
                {"20 before 26", 0, 17, 0, 0, 99, 99, 20}, {"not in sixes", 4, 17, 0, 0, 0, 0, 26},
                {"an IV outside", 4, 18, 0, 0, 23, 23, 26}, {"a content outside", 4, 18, 8, 8, 31, 31, 26},
                {"a tag outside", 4, 18, 16, 16, 19, 19, 26}, {"a place that wraps", 4, 18, 0, 0, 4294967284u, 4294967284u, 26},
                {"26 before 19", 4, 18, 1, 16, 11, 19, 26}, {"no frame", 4, 0, 0, 0, 0, 0, 36},
                {"a short IV", 4, 18, 1, 1, 11, 11, 19}, {"a long IV", 4, 18, 13, 13, 13, 13, 19},
                {"19 before 30 of a frame", 4, 18, 1, 5, 0, 0, 19}, {"19 of the last before 37", 4, 18, 13, 3, 11, 3, 19},
                {"a short tag", 4, 18, 5, 5, 15, 15, 30}, {"a long tag", 4, 18, 11, 11, 17, 17, 30},
                {"30 of the first before 19", 4, 18, 5, 7, 15, 11, 30}, {"30 of the last before 37", 4, 18, 17, 3, 0, 0, 30},
                {"a short content", 4, 18, 3, 3, 3, 3, 37}, {"a long content", 4, 18, 9, 9, 0, 0, 37},
                {"another length", 3, 18, 0, 0, 0, 0, 37}, {"37 before 35", 4, 18, 9, 15, 3, 5, 37},
                {"a long final content", 4, 18, 15, 15, 5, 5, 35}};
    uint32_t table[18];
    size_t i;
    for (i = 0; i < COUNT(rows); i++) {
        const struct request r = {rows[i].frame_length, TEXT, sizeof TEXT, table, rows[i].numbers};
        memcpy(table, sound, sizeof table);
        table[rows[i].at] = rows[i].is;
        table[rows[i].other] = rows[i].other_is;
        refused_by(rows[i].what, r, rows[i].number);
    }
}

/* frames as they were built, from the table of their places: as many as are written, and one more */
static void runs(void)
{
    static const uint32_t counts[] = {1, 2, 3, 255, 256, 257, 1000, 65535, 65536};
    size_t i;
    uint32_t length;
    for (i = 0; i < COUNT(counts); i++) {
        for (length = 1; length <= LONGEST_FRAME; length += 4) {
            struct request r;
            build_frames(counts[i], length, NO_FAULT);
            r.frame_length = length;
            r.text = frames.bytes;
            r.text_len = frames.length;
            r.frames = frames.table;
            r.frames_len = 6 * counts[i];
            if (counts[i] > 65535) {
                refused_by("too many frames", r, BAFIROLEN_REFUSED_COUNT_OR_PART_TOO_LONG);
            } else {
                takes("frames again", r, frames.bytes, frames.length);
            }
        }
    }
}

/* contents of 70,000 bytes, which no entry of a header has, and parts that are right in their lowest bytes alone */
static void large(void)
{
    static uint8_t text[70000];
    static uint32_t table[6 * 65536 + 3];
    struct request r = {sizeof text, text, sizeof text, table, 6};
    size_t i;
    for (i = 0; i < COUNT(table); i++) {
        static const uint32_t entry[6] = {0, 12, 0, sizeof text, 7, 16};
        table[i] = entry[i % 6];
    }
    written_is("a long content", measured(r), BAFIROLEN_ACCEPTED, 70040);
    r.frames_len = 6 * 65535;
    written_is("a length of 33 bits", measured(r), BAFIROLEN_ACCEPTED, 4589547128u);
    written_into("what 32 bits keep of it", r, 294579832, BAFIROLEN_REFUSED_OUTPUT_TOO_SHORT, text, 0);
    for (i = 1; i < 6; i++) {
        r.frames_len = 6 + i;
        refused_by("a table beyond a frame", r, BAFIROLEN_REFUSED_TABLE_OR_PLACE);
    }
    r.frames_len = COUNT(table);
    refused_by("26 before 27", r, BAFIROLEN_REFUSED_TABLE_OR_PLACE);
    r.frames_len = 6;
    table[1] = 268;
    refused_by("an IV of 268", r, BAFIROLEN_REFUSED_IV_LENGTH);
    table[1] = 65548;
    refused_by("an IV of 65,548", r, BAFIROLEN_REFUSED_IV_LENGTH);
    table[1] = 12;
    table[5] = 272;
    refused_by("a tag of 272", r, BAFIROLEN_REFUSED_TAG_LENGTH);
    table[5] = 65552;
    refused_by("a tag of 65,552", r, BAFIROLEN_REFUSED_TAG_LENGTH);
    r.frame_length = 4464;
    table[5] = 16;
    refused_by("a final content of 70,000", r, BAFIROLEN_REFUSED_FINAL_CONTENT_TOO_LONG);
    r.frames_len = 12;
    refused_by("a content of 70,000", r, BAFIROLEN_REFUSED_REGULAR_CONTENT_LENGTH);
}

int main(void)
{
    images();
    refusals();
    runs();
    large();
    return compared();
}
