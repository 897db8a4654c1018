/*
 * Writes the listing of the message in a file: that of its header, as list_header does, and then, where the content is framed, a
 * line for each frame: `frame`, its number, and the start and length of its content; in the last line `final` in place of `frame`.
 * Where it is not framed, the line is `non-framed` and where the content begins. Of a header that is refused nothing follows; a
 * record or frames that are refused fail.
 *
 *     gcc -std=c99 -O2 -Wall -Wextra -Iinclude hosts/c/list_message.c target/staticlib/libbafirolen_c.a -o target/list_message
 *     target/list_message FILE
 */
#include "message.h"

static const char program[] = "list_message";

/* tables as long as the listing's own: the header is read as the listing reads it */
static uint32_t pairs[4096], keys[4096];

/* The frames at a start, into a table that is never too short. */
static int list_frames(const uint8_t *message, size_t length, uint64_t start, uint32_t frame_length)
{
    const size_t numbers = (size_t)bafirolen_frame_table_len(length - start, frame_length);
    uint32_t *table = malloc(numbers * sizeof *table);
    BafirolenSection s;
    size_t i;
    if (table == NULL) {
        return file_failed(program, "memory");
    }
    s = bafirolen_read_frames(message, length, start, frame_length, table, numbers);
    for (i = 0; i < s.count; i++) {
        const uint32_t *frame = table + BAFIROLEN_NUMBERS_PER_FRAME * i;
        printf("%s\t%zu\t%" PRIu32 "\t%" PRIu32 "\n", i + 1 == s.count ? "final" : "frame", i + 1, frame[2], frame[3]);
    }
    free(table);
    return s.number == BAFIROLEN_ACCEPTED ? printed(program) : refused(program, s.number, s.position);
}

/* What stands behind the header: nothing is listed where that is refused. */
static int list_behind(const uint8_t *message, size_t length)
{
    BafirolenAuth a;
    const BafirolenBody b = bafirolen_read_header_body(message, length, 0, BAFIROLEN_EITHER, BAFIROLEN_TOLERANT,
                                                       BAFIROLEN_NO_MAX, 0, pairs, 4096, keys, 4096);
    if (b.number != BAFIROLEN_ACCEPTED) {
        return printed(program);
    }
    a = bafirolen_read_header_auth_tag(message, length, b.tail, b.numbers.suite);
    if (a.number != BAFIROLEN_ACCEPTED) {
        return refused(program, a.number, a.position);
    }
    if (b.numbers.contentType == BAFIROLEN_FRAMED) {
        return list_frames(message, length, a.tail, b.numbers.frameLength);
    }
    printf("non-framed\t%" PRIu64 "\n", a.tail);
    return printed(program);
}

/* So long an output is never too short. */
static int list(const uint8_t *message, size_t length, const char *key)
{
    const size_t room = 2 * length + 28;
    uint8_t *out = malloc(room);
    BafirolenWritten w;
    (void)key;
    if (out == NULL) {
        return file_failed(program, "memory");
    }
    w = bafirolen_write_listing(message, length, out, room);
    fwrite(out, 1, (size_t)w.length, stdout);
    free(out);
    return w.number == BAFIROLEN_ACCEPTED ? list_behind(message, length) : refused(program, w.number, w.position);
}

int main(int argc, char **argv)
{
    if (other_version(program)) {
        return 1;
    }
    if (argc != 2) {
        return usage("list_message FILE");
    }
    return with_message(program, argv[1], list, NULL);
}
