/*
 * Reads a header from a file and finds the value of one key in its context.
 *
 *     gcc -std=c99 -O2 -Wall -Wextra -Iinclude hosts/c/find_value.c target/staticlib/libbafirolen_c.a -o target/find_value
 *     target/find_value FILE KEY
 */
#include "message.h"

static const char program[] = "find_value";

/* tables that hold whatever a header can have */
static uint32_t pairs[BAFIROLEN_LARGEST_PAIR_TABLE], keys[BAFIROLEN_LARGEST_KEY_TABLE];

/* The header is read first: its context section is where it seems to be only where the header is accepted. */
static int find(const uint8_t *message, size_t length, const char *key)
{
    BafirolenPlace p;
    const BafirolenBody b =
        bafirolen_read_header_body(message, length, 0, BAFIROLEN_EITHER, BAFIROLEN_TOLERANT, BAFIROLEN_NO_MAX, 0, pairs,
                                   BAFIROLEN_LARGEST_PAIR_TABLE, keys, BAFIROLEN_LARGEST_KEY_TABLE);
    if (b.number != BAFIROLEN_ACCEPTED) {
        return refused(program, b.number, b.position);
    }
    p = bafirolen_find_value(message, length, bafirolen_context_start(b), (const uint8_t *)key, strlen(key));
    if (p.number != BAFIROLEN_ACCEPTED) {
        return refused(program, p.number, p.position);
    }
    fwrite(message + p.start, 1, (size_t)p.len, stdout);
    putchar('\n');
    return printed(program);
}

int main(int argc, char **argv)
{
    if (other_version(program)) {
        return 1;
    }
    if (argc != 3) {
        return usage("find_value FILE KEY");
    }
    return with_message(program, argv[1], find, argv[2]);
}
