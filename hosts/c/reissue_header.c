/*
 * Turns the draft of version 1 at the front of a file into version 2, with the suite, message ID and suite data that are given in
 * hexadecimal; reads the new body back, compares, and only then files it. What stands behind the draft is not taken over: an
 * authentication record is made for the draft, and the new body needs another.
 *
 *     gcc -std=c99 -O2 -Wall -Wextra -Iinclude hosts/c/reissue_header.c target/staticlib/libbafirolen_c.a -o target/reissue_header
 *     target/reissue_header FILE NEW 0578 ID DATA
 */
#include "message.h"

static const char program[] = "reissue_header";

/* a body that was read, and tables that hold whatever it can have */
struct read {
    BafirolenBody body;
    uint32_t pairs[BAFIROLEN_LARGEST_PAIR_TABLE], keys[BAFIROLEN_LARGEST_KEY_TABLE];
};

static struct read was, now;

/* what the draft is given */
static struct {
    uint32_t suite;
    struct part id, data;
} added;

/* The value of a hexadecimal digit, or 16 where it is none. */
static unsigned value_of(char digit)
{
    static const char digits[] = "0123456789abcdefABCDEF";
    const char *at = digit == 0 ? NULL : strchr(digits, digit);
    const unsigned value = at == NULL ? 16 : (unsigned)(at - digits);
    return at == NULL || value < 16 ? value : value - 6;
}

/* The bytes that digits stand for, two for each, are put where the digits are, which take twice as much: 1, or 0 where they are not
 * digits by twos. */
static int decode(char *digits, struct part *part)
{
    uint8_t *bytes = (uint8_t *)digits;
    const size_t n = strlen(digits);
    size_t i;
    for (i = 0; i < n; i += 2) {
        /* behind the last digit stands a 0, which is none */
        const unsigned high = value_of(digits[i]), low = value_of(digits[i + 1]);
        if (high == 16 || low == 16) {
            return 0;
        }
        bytes[i / 2] = (uint8_t)(16 * high + low);
    }
    part->bytes = bytes;
    part->length = n / 2;
    return 1;
}

/* The number of up to four bytes, which need not be a suite. */
static int decode_suite(char *digits)
{
    struct part part;
    size_t i;
    if (!decode(digits, &part) || part.length == 0 || part.length > 4) {
        return 0;
    }
    for (i = 0; i < part.length; i++) {
        added.suite = added.suite << 8 | part.bytes[i];
    }
    return 1;
}

/* Reads the body at the front of a message: whether it is accepted. */
static int read_body(struct read *r, const uint8_t *message, size_t length, uint32_t which)
{
    r->body = bafirolen_read_header_body(message, length, 0, which, BAFIROLEN_TOLERANT, BAFIROLEN_NO_MAX, 0, r->pairs,
                                         BAFIROLEN_LARGEST_PAIR_TABLE, r->keys, BAFIROLEN_LARGEST_KEY_TABLE);
    return r->body.number == BAFIROLEN_ACCEPTED;
}

static int same_bytes(const uint8_t *bytes, uint64_t length, struct part want)
{
    return length == want.length && memcmp(bytes, want.bytes, want.length) == 0;
}

/* The new body can be read, to its end, and has what was added and what the draft handed on. */
static int reads_back(const uint8_t *message, size_t message_len, const uint8_t *header, size_t length)
{
    const BafirolenBody *a = &was.body, *b = &now.body;
    BafirolenNumbers n;
    if (!read_body(&was, message, message_len, BAFIROLEN_V1_ONLY) || !read_body(&now, header, length, BAFIROLEN_EITHER)) {
        return 0;
    }
    n = bafirolen_v2_numbers(added.suite, a->numbers.contentType, a->numbers.frameLength);
    return b->tail == length && memcmp(&b->numbers, &n, sizeof n) == 0
           && same_bytes(header + b->messageIdStart, b->messageIdLen, added.id)
           && same_bytes(header + b->suiteDataStart, b->suiteDataLen, added.data) && b->pairCount == a->pairCount
           && b->keyCount == a->keyCount
           && same_parts(header, now.pairs, message, was.pairs, BAFIROLEN_NUMBERS_PER_PAIR * a->pairCount)
           && same_parts(header, now.keys, message, was.keys, BAFIROLEN_NUMBERS_PER_KEY * a->keyCount);
}

static int report(void)
{
    const BafirolenNumbers a = was.body.numbers, b = now.body.numbers;
    printf("reissued %" PRIu64 " bytes of version 1 as %" PRIu64 " of version 2\n", was.body.tail, now.body.tail);
    printf("suite %04" PRIx32 " is now %04" PRIx32 "\n", a.suite, b.suite);
    printf("pairs %" PRIu64 ", encrypted data keys %" PRIu64 ", content type %02" PRIx32 ", frame length %" PRIu32 "\n",
           now.body.pairCount, now.body.keyCount, b.contentType, b.frameLength);
    return printed(program);
}

/* The output is as long as the new body, so that it is never too short. */
static int reissue_and_file(const uint8_t *message, size_t message_len, size_t length, const char *path)
{
    uint8_t *out = malloc(length);
    int status = 1;
    BafirolenWritten w;
    if (out == NULL) {
        return file_failed(program, "memory");
    }
    w = bafirolen_reissue_header_body(message, message_len, 0, added.suite, added.id.bytes, added.id.length, added.data.bytes,
                                      added.data.length, out, length);
    if (w.number != BAFIROLEN_ACCEPTED) {
        status = refused(program, w.number, w.position);
    } else if (w.length != length || !reads_back(message, message_len, out, length)) {
        fprintf(stderr, "%s: what was read back is not what was written\n", program);
    } else if (!filed(path, out, length)) {
        status = file_failed(program, path);
    } else {
        status = report();
    }
    free(out);
    return status;
}

static int reissue(const uint8_t *message, size_t length, const char *path)
{
    const BafirolenWritten w = bafirolen_reissued_header_body_len(message, length, 0, added.suite, added.id.bytes, added.id.length,
                                                                  added.data.bytes, added.data.length);
    return w.number == BAFIROLEN_ACCEPTED ? reissue_and_file(message, length, (size_t)w.length, path)
                                          : refused(program, w.number, w.position);
}

int main(int argc, char **argv)
{
    if (other_version(program)) {
        return 1;
    }
    if (argc != 6 || !decode_suite(argv[3]) || !decode(argv[4], &added.id) || !decode(argv[5], &added.data)) {
        return usage("reissue_header FILE NEW SUITE ID DATA");
    }
    return with_message(program, argv[1], reissue, argv[2]);
}
