/*
 * Writes the listing of the header in a file, as the listing program does of its standard input, and takes the file whole. A
 * header that is refused has a listing too, the one line that says so; the exit status is 0 exactly where the listing was written.
 *
 *     gcc -std=c99 -O2 -Wall -Wextra -Iinclude hosts/c/list_header.c target/staticlib/libbafirolen_c.a -o target/list_header
 *     target/list_header FILE
 */
#include "message.h"

static const char program[] = "list_header";

/* So long an output is never too short. */
static int list(const uint8_t *message, size_t length, const char *key)
{
    const size_t room = 2 * length + 28;
    uint8_t *out = malloc(room);
    BafirolenWritten w;
    (void)key;
    if (out == NULL) {
        return file_failed(program, "memory");
    }
    w = bafirolen_write_listing(message, length, out, room);
    fwrite(out, 1, (size_t)w.length, stdout);
    free(out);
    return w.number == BAFIROLEN_ACCEPTED ? printed(program) : refused(program, w.number, w.position);
}

int main(int argc, char **argv)
{
    if (other_version(program)) {
        return 1;
    }
    if (argc != 2) {
        return usage("list_header FILE");
    }
    return with_message(program, argv[1], list, NULL);
}
