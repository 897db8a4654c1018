/*
 * Reads a header from a file and writes, in hexadecimal, the bytes that a station authenticates for the keys named: the pairs of
 * its context that have them. Where it has none of them, the line is empty.
 *
 *     gcc -std=c99 -O2 -Wall -Wextra -Iinclude hosts/c/only_authenticated.c target/staticlib/libbafirolen_c.a \
 *         -o target/only_authenticated
 *     target/only_authenticated FILE KEY..
 */
#include "message.h"

static const char program[] = "only_authenticated";

/* tables that hold whatever a header can have, and an output that is never too short */
static uint32_t pairs[BAFIROLEN_LARGEST_PAIR_TABLE], keys[BAFIROLEN_LARGEST_KEY_TABLE];
static uint8_t out[65535];

/* the keys that are named, one after the other, and their places */
static struct {
    uint8_t *text;
    uint32_t *places;
    size_t text_len, places_len;
} required;

/* The header is read first: its context section is where it seems to be only where the header is accepted. */
static int authenticate(const uint8_t *message, size_t length, const char *key)
{
    BafirolenWritten w;
    size_t i;
    const BafirolenBody b =
        bafirolen_read_header_body(message, length, 0, BAFIROLEN_EITHER, BAFIROLEN_TOLERANT, BAFIROLEN_NO_MAX, 0, pairs,
                                   BAFIROLEN_LARGEST_PAIR_TABLE, keys, BAFIROLEN_LARGEST_KEY_TABLE);
    (void)key;
    if (b.number != BAFIROLEN_ACCEPTED) {
        return refused(program, b.number, b.position);
    }
    w = bafirolen_write_only_authenticated(message, length, bafirolen_context_start(b), required.text, required.text_len,
                                           required.places, required.places_len, out, sizeof out);
    if (w.number != BAFIROLEN_ACCEPTED) {
        return refused(program, w.number, w.position);
    }
    for (i = 0; i < w.length; i++) {
        printf("%02x", out[i]);
    }
    putchar('\n');
    return printed(program);
}

/* Copies the keys to where their places are counted from: 0, or 1 where there is no memory for that. */
static int require(char **named, size_t n)
{
    size_t i, length = 0;
    for (i = 0; i < n; i++) {
        length += strlen(named[i]);
    }
    /* one byte where the keys have none: null says that there is no memory */
    required.text = malloc(length + 1);
    required.places = malloc(2 * n * sizeof *required.places);
    if (required.text == NULL || required.places == NULL) {
        return 1;
    }
    for (i = 0; i < n; i++) {
        length = strlen(named[i]);
        memcpy(required.text + required.text_len, named[i], length);
        required.places[required.places_len++] = (uint32_t)required.text_len;
        required.places[required.places_len++] = (uint32_t)length;
        required.text_len += length;
    }
    return 0;
}

int main(int argc, char **argv)
{
    int status;
    if (other_version(program)) {
        return 1;
    }
    if (argc < 3) {
        return usage("only_authenticated FILE KEY..");
    }
    status = require(argv + 2, (size_t)argc - 2) ? file_failed(program, "memory")
                                                 : with_message(program, argv[1], authenticate, NULL);
    free(required.text);
    free(required.places);
    return status;
}
