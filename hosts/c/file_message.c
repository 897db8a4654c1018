/*
 * Writes the message of the content in a file: a header, its authentication record and the frames behind it, into just as many
 * bytes as they take. Reads all of that back, compares, and only then files it. Nothing is encrypted here: the content is taken as
 * a cipher would have given it, and IVs and tags are samples, the number of their frame in digits, that of the record 0.
 *
 *     gcc -std=c99 -O2 -Wall -Wextra -Iinclude hosts/c/file_message.c target/staticlib/libbafirolen_c.a -o target/file_message
 *     target/file_message CONTENT FILE
 */
#include "message.h"

#define FRAME_LENGTH 4096
#define SEALED (BAFIROLEN_IV_LEN + BAFIROLEN_TAG_LEN)

static const char program[] = "file_message";

/* a pair and a key have their places in one text */
static const uint8_t fields[] = {'l', 'a', 'n', 'g', 'c', 'y', 'p', '1', 'a', 0xAA, 0xBB, 0xCC};
static const uint32_t pairs[BAFIROLEN_NUMBERS_PER_PAIR] = {0, 4, 4, 2};
static const uint32_t keys[BAFIROLEN_NUMBERS_PER_KEY] = {6, 2, 8, 1, 9, 3};
static const uint8_t id[16] = {0, 1, 2, 3, 4, 5, 6, 7, 8, 9, 10, 11, 12, 13, 14, 15};

/* the parts of all frames in one text, and their table */
struct lent {
    uint8_t *text;
    uint32_t *table;
    size_t length, numbers;
};

/* a message, and how long each of its three parts is */
struct message {
    uint8_t *bytes;
    size_t header, record, frames;
};

static BafirolenNumbers numbers(void)
{
    return bafirolen_v1_numbers(0x0178, BAFIROLEN_FRAMED, FRAME_LENGTH);
}

/* the sample IV and tag of a frame; snprintf ends with a 0, which is not copied */
static void sealed(size_t number, uint8_t *to)
{
    char digits[32];
    snprintf(digits, sizeof digits, "%0*zu", BAFIROLEN_IV_LEN, number);
    memcpy(to, digits, BAFIROLEN_IV_LEN);
    snprintf(digits, sizeof digits, "%0*zu", BAFIROLEN_TAG_LEN, number);
    memcpy(to + BAFIROLEN_IV_LEN, digits, BAFIROLEN_TAG_LEN);
}

/* Content of the frame length for each frame but the last, which has the rest, and is there without any. Where a number has more
 * than 32 bits, there are too many frames. */
static int lend(struct lent *l, const uint8_t *content, size_t length)
{
    const size_t count = length == 0 ? 1 : (length + FRAME_LENGTH - 1) / FRAME_LENGTH;
    size_t i;
    l->length = length + SEALED * count;
    l->numbers = BAFIROLEN_NUMBERS_PER_FRAME * count;
    l->text = malloc(l->length);
    l->table = malloc(l->numbers * sizeof *l->table);
    if (l->text == NULL || l->table == NULL) {
        return 0;
    }
    memcpy(l->text, content, length);
    for (i = 0; i < count; i++) {
        const size_t at = length + SEALED * i, start = FRAME_LENGTH * i, rest = length - start;
        const uint32_t entry[BAFIROLEN_NUMBERS_PER_FRAME] = {
            (uint32_t)at, BAFIROLEN_IV_LEN, (uint32_t)start, (uint32_t)(rest < FRAME_LENGTH ? rest : FRAME_LENGTH),
            (uint32_t)at + BAFIROLEN_IV_LEN, BAFIROLEN_TAG_LEN};
        sealed(i + 1, l->text + at);
        memcpy(l->table + BAFIROLEN_NUMBERS_PER_FRAME * i, entry, sizeof entry);
    }
    return 1;
}

/* the frames from `start` on can be read, to the message's end, and have the parts that were to be written */
static int frames_read_back(const uint8_t *m, size_t length, uint64_t start, const struct lent *l)
{
    uint32_t *table = malloc(l->numbers * sizeof *table);
    BafirolenSection s;
    int same;
    if (table == NULL) {
        return 0;
    }
    s = bafirolen_read_frames(m, length, start, FRAME_LENGTH, table, l->numbers);
    same = s.number == BAFIROLEN_ACCEPTED && s.tail == length && BAFIROLEN_NUMBERS_PER_FRAME * s.count == l->numbers
           && same_parts(m, table, l->text, l->table, l->numbers);
    free(table);
    return same;
}

/* the message can be read, and what is read is what was to be written */
static int reads_back(const uint8_t *m, size_t length, const struct lent *l)
{
    uint32_t p[4], k[6];
    uint8_t record[SEALED];
    const BafirolenNumbers n = numbers();
    const BafirolenBody b =
        bafirolen_read_header_body(m, length, 0, BAFIROLEN_EITHER, BAFIROLEN_STRICT, BAFIROLEN_NO_MAX, 0, p, 4, k, 6);
    const BafirolenAuth a = bafirolen_read_header_auth_tag(m, length, b.tail, b.numbers.suite);
    sealed(0, record);
    return b.number == BAFIROLEN_ACCEPTED && memcmp(&b.numbers, &n, sizeof n) == 0 && b.messageIdLen == sizeof id
           && memcmp(m + b.messageIdStart, id, sizeof id) == 0 && b.suiteDataLen == 0 && b.pairCount == 1 && b.keyCount == 1
           && same_parts(m, p, fields, pairs, 4) && same_parts(m, k, fields, keys, 6) && a.number == BAFIROLEN_ACCEPTED
           && memcmp(a.iv, record, sizeof a.iv) == 0 && memcmp(a.tag, record + sizeof a.iv, sizeof a.tag) == 0
           && frames_read_back(m, length, a.tail, l);
}

/* Writes the three parts one behind the other, each into just its length: the first refusal, or none. */
static BafirolenWritten written(const struct message *m, const struct lent *l)
{
    uint8_t record[SEALED];
    BafirolenWritten w = bafirolen_write_header_body(numbers(), id, sizeof id, NULL, 0, fields, sizeof fields, pairs, 4, keys, 6,
                                                     m->bytes, m->header);
    sealed(0, record);
    if (w.number == BAFIROLEN_ACCEPTED) {
        w = bafirolen_write_header_auth_tag(numbers().suite, record, BAFIROLEN_IV_LEN, record + BAFIROLEN_IV_LEN,
                                            BAFIROLEN_TAG_LEN, m->bytes + m->header, m->record);
    }
    if (w.number == BAFIROLEN_ACCEPTED) {
        w = bafirolen_write_frames(FRAME_LENGTH, l->text, l->length, l->table, l->numbers, m->bytes + m->header + m->record,
                                   m->frames);
    }
    return w;
}

static int write_and_file(struct message *m, const struct lent *l, const char *path)
{
    const size_t length = m->header + m->record + m->frames;
    int status = 1;
    BafirolenWritten w;
    m->bytes = malloc(length);
    if (m->bytes == NULL) {
        return file_failed(program, "memory");
    }
    w = written(m, l);
    if (w.number != BAFIROLEN_ACCEPTED) {
        status = refused(program, w.number, w.position);
    } else if (!reads_back(m->bytes, length, l)) {
        fprintf(stderr, "%s: what was read back is not what was written\n", program);
    } else if (!filed(path, m->bytes, length)) {
        status = file_failed(program, path);
    } else {
        printf("filed %zu bytes\n", length);
        status = printed(program);
    }
    free(m->bytes);
    return status;
}

/* How long the header and the frames are is asked before there is an output; a record of version 1 is an IV and a tag. */
static int measure(const struct lent *l, const char *path)
{
    struct message m = {NULL, 0, SEALED, 0};
    BafirolenWritten w = bafirolen_header_body_len(numbers(), id, sizeof id, NULL, 0, fields, sizeof fields, pairs, 4, keys, 6);
    m.header = (size_t)w.length;
    if (w.number == BAFIROLEN_ACCEPTED) {
        w = bafirolen_frames_len(FRAME_LENGTH, l->text, l->length, l->table, l->numbers);
        m.frames = (size_t)w.length;
    }
    return w.number == BAFIROLEN_ACCEPTED ? write_and_file(&m, l, path) : refused(program, w.number, w.position);
}

static int file(const uint8_t *content, size_t length, const char *path)
{
    struct lent l;
    const int status = lend(&l, content, length) ? measure(&l, path) : file_failed(program, "memory");
    free(l.text);
    free(l.table);
    return status;
}

int main(int argc, char **argv)
{
    if (other_version(program)) {
        return 1;
    }
    if (argc != 3) {
        return usage("file_message CONTENT FILE");
    }
    return with_message(program, argv[1], file, argv[2]);
}
