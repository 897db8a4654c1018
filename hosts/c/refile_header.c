/*
 * Reads the header at the front of a file, writes it again from what was read, compares the bytes, and only then files them anew.
 * Reads and writes it under a commitment policy, if one is named: FORBID_ENCRYPT_ALLOW_DECRYPT, REQUIRE_ENCRYPT_ALLOW_DECRYPT or
 * REQUIRE_ENCRYPT_REQUIRE_DECRYPT.
 *
 *     gcc -std=c99 -O2 -Wall -Wextra -Iinclude hosts/c/refile_header.c target/staticlib/libbafirolen_c.a -o target/refile_header
 *     target/refile_header FILE NEW [POLICY]
 */
#include "message.h"

static const char program[] = "refile_header";

/* tables that hold whatever a header can have */
static uint32_t pairs[BAFIROLEN_LARGEST_PAIR_TABLE], keys[BAFIROLEN_LARGEST_KEY_TABLE];

static uint32_t policy = BAFIROLEN_NO_POLICY;

/* Takes the policy of that name: 1, or 0 where there is none, so that nothing is read under another than was meant. */
static int take_policy(const char *name)
{
    static const char *const names[] = {[BAFIROLEN_FORBID_ENCRYPT_ALLOW_DECRYPT] = "FORBID_ENCRYPT_ALLOW_DECRYPT",
                                        [BAFIROLEN_REQUIRE_ENCRYPT_ALLOW_DECRYPT] = "REQUIRE_ENCRYPT_ALLOW_DECRYPT",
                                        [BAFIROLEN_REQUIRE_ENCRYPT_REQUIRE_DECRYPT] = "REQUIRE_ENCRYPT_REQUIRE_DECRYPT"};
    for (policy = 1; policy < sizeof names / sizeof *names; policy++) {
        if (strcmp(name, names[policy]) == 0) {
            return 1;
        }
    }
    return 0;
}

/* Writes a header that was read: the message is the text, and the tables are lent as far as they were filled. */
static BafirolenWritten write_again(const uint8_t *message, size_t length, BafirolenBody b, uint8_t *out, size_t room)
{
    /* b.numbers has the form, and the writer follows it */
    return bafirolen_write_header_body_under_policy(b.numbers, policy, message + b.messageIdStart, b.messageIdLen,
                                                    message + b.suiteDataStart, b.suiteDataLen, message, length, pairs,
                                                    BAFIROLEN_NUMBERS_PER_PAIR * b.pairCount, keys,
                                                    BAFIROLEN_NUMBERS_PER_KEY * b.keyCount, out, room);
}

/* The output is as long as what was read. */
static int file_again(const uint8_t *message, size_t length, BafirolenBody b, const char *path)
{
    const size_t room = (size_t)b.tail;
    uint8_t *out = malloc(room);
    int status = 1;
    BafirolenWritten w;
    if (out == NULL) {
        return file_failed(program, "memory");
    }
    w = write_again(message, length, b, out, room);
    if (w.number != BAFIROLEN_ACCEPTED) {
        status = refused(program, w.number, w.position);
    } else if (w.length != room || memcmp(out, message, room) != 0) {
        fprintf(stderr, "%s: what was written is not what was read\n", program);
    } else if (!filed(path, out, room)) {
        status = file_failed(program, path);
    } else {
        printf("refiled %" PRIu64 " bytes\n", w.length);
        status = printed(program);
    }
    free(out);
    return status;
}

static int refile(const uint8_t *message, size_t length, const char *path)
{
    const BafirolenBody b = bafirolen_read_header_body_under_policy(
        message, length, 0, BAFIROLEN_EITHER, BAFIROLEN_TOLERANT, BAFIROLEN_NO_MAX, 0, policy, pairs, BAFIROLEN_LARGEST_PAIR_TABLE,
        keys, BAFIROLEN_LARGEST_KEY_TABLE);
    return b.number == BAFIROLEN_ACCEPTED ? file_again(message, length, b, path) : refused(program, b.number, b.position);
}

int main(int argc, char **argv)
{
    if (other_version(program)) {
        return 1;
    }
    if ((argc != 3 && argc != 4) || (argc == 4 && !take_policy(argv[3]))) {
        return usage("refile_header FILE NEW [POLICY]");
    }
    return with_message(program, argv[1], refile, argv[2]);
}
