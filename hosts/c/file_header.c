/*
 * Builds the fields of a header, asks how long it is, writes it into just so many bytes, reads it back, compares, and only then
 * files it.
 *
 *     gcc -std=c99 -O2 -Wall -Wextra -Iinclude hosts/c/file_header.c target/staticlib/libbafirolen_c.a -o target/file_header
 *     target/file_header FILE
 */
#include "message.h"

static const char program[] = "file_header";

/* pairs and keys have their places in one text: key and value; provider ID, provider info and ciphertext */
static const uint8_t text[] = {'l', 'a', 'n', 'g', 'c', 'y', 'p', '1', 'a', 0xAA, 0xBB, 0xCC};
static const uint32_t pairs[BAFIROLEN_NUMBERS_PER_PAIR] = {0, 4, 4, 2};
static const uint32_t keys[BAFIROLEN_NUMBERS_PER_KEY] = {6, 2, 8, 1, 9, 3};
static const uint8_t id[16] = {0, 1, 2, 3, 4, 5, 6, 7, 8, 9, 10, 11, 12, 13, 14, 15};

static BafirolenNumbers numbers(void)
{
    return bafirolen_v1_numbers(0x0178, BAFIROLEN_FRAMED, 4096);
}

/* the header can be read, to its end, and what is read is what was to be written */
static int reads_back(const uint8_t *header, size_t length)
{
    uint32_t p[4], k[6];
    const BafirolenNumbers n = numbers();
    const BafirolenBody b =
        bafirolen_read_header_body(header, length, 0, BAFIROLEN_EITHER, BAFIROLEN_STRICT, BAFIROLEN_NO_MAX, 0, p, 4, k, 6);
    return b.number == BAFIROLEN_ACCEPTED && b.tail == length && memcmp(&b.numbers, &n, sizeof n) == 0
           && b.messageIdLen == sizeof id && memcmp(header + b.messageIdStart, id, sizeof id) == 0 && b.suiteDataLen == 0
           && b.pairCount == 1 && b.keyCount == 1 && same_parts(header, p, text, pairs, 4) && same_parts(header, k, text, keys, 6);
}

/* how long the header is; version 1 has no suite data */
static BafirolenWritten measured(void)
{
    return bafirolen_header_body_len(numbers(), id, sizeof id, NULL, 0, text, sizeof text, pairs, 4, keys, 6);
}

static BafirolenWritten written(uint8_t *out, size_t room)
{
    return bafirolen_write_header_body(numbers(), id, sizeof id, NULL, 0, text, sizeof text, pairs, 4, keys, 6, out, room);
}

/* The output is as long as the header, so that it is never too short. */
static int write_and_file(size_t length, const char *path)
{
    uint8_t *out = malloc(length);
    int status = 1;
    BafirolenWritten w;
    if (out == NULL) {
        return file_failed(program, "memory");
    }
    w = written(out, length);
    if (w.number != BAFIROLEN_ACCEPTED) {
        status = refused(program, w.number, w.position);
    } else if (w.length != length || !reads_back(out, length)) {
        fprintf(stderr, "%s: what was read back is not what was written\n", program);
    } else if (!filed(path, out, length)) {
        status = file_failed(program, path);
    } else {
        printf("filed %" PRIu64 " bytes\n", w.length);
        status = printed(program);
    }
    free(out);
    return status;
}

int main(int argc, char **argv)
{
    BafirolenWritten w;
    if (other_version(program)) {
        return 1;
    }
    if (argc != 2) {
        return usage("file_header FILE");
    }
    w = measured();
    return w.number == BAFIROLEN_ACCEPTED ? write_and_file((size_t)w.length, argv[1]) : refused(program, w.number, w.position);
}
