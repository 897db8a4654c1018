/*
 * Fetches the header at the front of standard input, such as a pipe, and says how many bytes it has, and in how many rounds they
 * came. No byte behind it is asked for, nor behind what a header is refused for: whoever reads next finds them. Where PIECE is
 * named, at most so many bytes are read at once.
 *
 *     gcc -std=c99 -O2 -Wall -Wextra -Iinclude hosts/c/fetch_header.c target/staticlib/libbafirolen_c.a -o target/fetch_header
 *     cat FILE | (target/fetch_header [PIECE]; cat >BEHIND)
 */
#include "example.h"

#include <stdlib.h>
#include <unistd.h>

static const char program[] = "fetch_header";

/* tables that hold whatever a header can have */
static uint32_t pairs[BAFIROLEN_LARGEST_PAIR_TABLE], keys[BAFIROLEN_LARGEST_KEY_TABLE];

/* no longer header is taken: a header may claim more than ever comes */
static uint8_t buffer[1048576];
static size_t held;

/* A FILE would read ahead. */
static ssize_t more(uint8_t *room, uint64_t wanted, size_t piece)
{
    return read(STDIN_FILENO, room, wanted < piece ? (size_t)wanted : piece);
}

/* The loop of bafirolen_fetch.h. Where standard input fails, errno says why, and *failed is set. */
static BafirolenBody fetch(size_t piece, uint64_t *rounds, int *failed)
{
    ssize_t got = 0;
    BafirolenBody b;
    for (*rounds = 0;; ++*rounds) {
        b = bafirolen_read_header_body(buffer, held, 0, BAFIROLEN_EITHER, BAFIROLEN_TOLERANT, BAFIROLEN_NO_MAX, 0, pairs,
                                       BAFIROLEN_LARGEST_PAIR_TABLE, keys, BAFIROLEN_LARGEST_KEY_TABLE);
        if (b.number != BAFIROLEN_REFUSED_SHORTAGE || b.position > sizeof buffer) {
            break;
        }
        while (held < b.position && (got = more(buffer + held, b.position - held, piece)) > 0) {
            held += (size_t)got;
        }
        if (held < b.position) {
            break;
        }
    }
    *failed = got < 0;
    return b;
}

static int fetch_and_say(size_t piece)
{
    uint64_t rounds;
    int failed;
    const BafirolenBody b = fetch(piece, &rounds, &failed);
    if (failed) {
        return file_failed(program, "standard input");
    }
    if (b.position > sizeof buffer) {
        fprintf(stderr, "%s: a header above %zu bytes\n", program, sizeof buffer);
        return 1;
    }
    if (b.number != BAFIROLEN_ACCEPTED) {
        return refused(program, b.number, b.position);
    }
    printf("header of %" PRIu64 " bytes in %" PRIu64 " rounds\n", b.tail, rounds);
    return printed(program);
}

int main(int argc, char **argv)
{
    char *end = NULL;
    const size_t piece = argc == 2 ? strtoul(argv[1], &end, 10) : SIZE_MAX;
    if (other_version(program)) {
        return 1;
    }
    if (argc > 2 || piece == 0 || (end != NULL && *end != 0)) {
        return usage("fetch_header [PIECE]");
    }
    return fetch_and_say(piece);
}
