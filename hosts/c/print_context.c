/*
 * Reads a header from a file and prints the pairs of its context.
 *
 *     gcc -std=c99 -O2 -Wall -Wextra -Iinclude hosts/c/print_context.c target/staticlib/libbafirolen_c.a -o target/print_context
 *     target/print_context FILE
 */
#include "message.h"

static const char program[] = "print_context";

/* tables that hold whatever a header can have */
static uint32_t pairs[BAFIROLEN_LARGEST_PAIR_TABLE], keys[BAFIROLEN_LARGEST_KEY_TABLE];

static void print_part(const uint8_t *message, const uint32_t *place, const char *behind)
{
    fwrite(message + place[0], 1, place[1], stdout);
    fputs(behind, stdout);
}

static int print(const uint8_t *message, size_t length, const char *key)
{
    size_t i;
    const BafirolenBody b =
        bafirolen_read_header_body(message, length, 0, BAFIROLEN_EITHER, BAFIROLEN_TOLERANT, BAFIROLEN_NO_MAX, 0, pairs,
                                   BAFIROLEN_LARGEST_PAIR_TABLE, keys, BAFIROLEN_LARGEST_KEY_TABLE);
    (void)key;
    if (b.number != BAFIROLEN_ACCEPTED) {
        return refused(program, b.number, b.position);
    }
    for (i = 0; i < b.pairCount; i++) {
        print_part(message, pairs + BAFIROLEN_NUMBERS_PER_PAIR * i, " = ");
        print_part(message, pairs + BAFIROLEN_NUMBERS_PER_PAIR * i + 2, "\n");
    }
    return printed(program);
}

int main(int argc, char **argv)
{
    if (other_version(program)) {
        return 1;
    }
    if (argc != 2) {
        return usage("print_context FILE");
    }
    return with_message(program, argv[1], print, NULL);
}
