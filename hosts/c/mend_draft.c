/*
 * Mends the draft at the front of a file, step by step, and only then files it anew. `drop ID` takes out all encrypted data keys
 * with that provider ID, such as those of a departed station. `add ID INFO CIPHERTEXT` puts one behind the others, with the
 * provider info and the ciphertext that stand in two files. What is refused at any step is not filed.
 *
 *     gcc -std=c99 -O2 -Wall -Wextra -Iinclude hosts/c/mend_draft.c target/staticlib/libbafirolen_c.a -o target/mend_draft
 *     target/mend_draft FILE NEW add p2 INFO CIPHERTEXT drop p1
 */
#include "message.h"

static const char program[] = "mend_draft";

/* a draft in memory of its own, which grows with it */
struct draft {
    uint8_t *bytes;
    size_t length;
};

/* The draft is as long as the answer says: 0; or 1, and the refusal is written. */
static int mended(struct draft *d, BafirolenWritten w)
{
    if (w.number != BAFIROLEN_ACCEPTED) {
        return refused(program, w.number, w.position);
    }
    d->length = (size_t)w.length;
    return 0;
}

static BafirolenWritten add_key(struct draft *d, const char *id, struct part info, struct part ciphertext)
{
    return bafirolen_add_encrypted_data_key(d->bytes, d->length, (const uint8_t *)id, strlen(id), info.bytes, info.length,
                                            ciphertext.bytes, ciphertext.length);
}

/* First without more room: where that is all that is wanting, the draft is whole. Room that is lent before this is known could
 * complete a draft that breaks off. */
static int add(struct draft *d, const char *id, struct part info, struct part ciphertext)
{
    BafirolenWritten w = add_key(d, id, info, ciphertext);
    if (w.number == BAFIROLEN_REFUSED_OUTPUT_TOO_SHORT) {
        const size_t longer = d->length + 6 + strlen(id) + info.length + ciphertext.length;
        uint8_t *bytes = realloc(d->bytes, longer);
        if (bytes == NULL) {
            return file_failed(program, "memory");
        }
        /* whatever stands in the new room is overwritten */
        d->bytes = bytes;
        d->length = longer;
        w = add_key(d, id, info, ciphertext);
    }
    return mended(d, w);
}

static int add_from_files(struct draft *d, const char *id, const char *info_path, const char *ciphertext_path)
{
    size_t info_len = 0, ciphertext_len = 0;
    uint8_t *info = message_of(info_path, &info_len), *ciphertext = NULL;
    int status;
    if (info == NULL) {
        status = file_failed(program, info_path);
    } else if ((ciphertext = message_of(ciphertext_path, &ciphertext_len)) == NULL) {
        status = file_failed(program, ciphertext_path);
    } else {
        const struct part i = {info, info_len}, c = {ciphertext, ciphertext_len};
        status = add(d, id, i, c);
    }
    free(info);
    free(ciphertext);
    return status;
}

/* The freed bytes lie behind the draft, which is filed without them. */
static int drop(struct draft *d, const char *id)
{
    return mended(d, bafirolen_drop_encrypted_data_keys(d->bytes, d->length, (const uint8_t *)id, strlen(id)));
}

/* How many arguments a step has, its name among them; 0 where it is none, or lacks one. */
static int step_length(char **step, int left)
{
    const int wanted = strcmp(step[0], "drop") == 0 ? 2 : strcmp(step[0], "add") == 0 ? 4 : 0;
    return wanted <= left ? wanted : 0;
}

static int are_steps(char **step, int left)
{
    int length = left;
    while (left > 0 && (length = step_length(step, left)) > 0) {
        step += length;
        left -= length;
    }
    return length > 0;
}

static int mend(struct draft *d, char **step, int left)
{
    int status = 0;
    while (status == 0 && left > 0) {
        const int length = step_length(step, left);
        status = length == 2 ? drop(d, step[1]) : add_from_files(d, step[1], step[2], step[3]);
        step += length;
        left -= length;
    }
    return status;
}

static int file(const struct draft *d, const char *path)
{
    if (!filed(path, d->bytes, d->length)) {
        return file_failed(program, path);
    }
    printf("mended to %zu bytes\n", d->length);
    return printed(program);
}

int main(int argc, char **argv)
{
    struct draft d;
    int status;
    if (other_version(program)) {
        return 1;
    }
    if (argc < 4 || !are_steps(argv + 3, argc - 3)) {
        return usage("mend_draft FILE NEW {drop ID | add ID INFO CIPHERTEXT}..");
    }
    d.bytes = message_of(argv[1], &d.length);
    if (d.bytes == NULL) {
        return file_failed(program, argv[1]);
    }
    status = mend(&d, argv + 3, argc - 3);
    status = status == 0 ? file(&d, argv[2]) : status;
    free(d.bytes);
    return status;
}
