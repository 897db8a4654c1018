/*
 * A host in C: encrypted data keys dropped from a draft, and one added, in the buffer in which it stands. What is left there is
 * compared, byte by byte, with a draft that was put together by hand, or that was written from the fields as they should be. Each
 * part is an allocation of exactly the bytes that are lent. check_drafts_refused.c has what is refused. Writes `compared N cases`;
 * a difference is written to standard error, and the exit status is 1.
 *
 *     tools/archives
 *     gcc -std=c99 -O2 -Wall -Wextra -Iinclude hosts/c/check_drafts.c target/staticlib/libbafirolen_c.a -o target/check_drafts
 *     valgrind --error-exitcode=1 target/check_drafts
 */
#include "bodies.h"
#include "drafts.h"

static uint8_t whole[LONGEST], wanted[LONGEST];

/* what is behind a draft, from nothing on */
static const size_t rooms[] = {0, 1, 50};

/* with no ID, with one that begins the next, and with one of more than ASCII; parts of other keys look like theirs */
static const struct key samples[] = {KEY("", "", ""), KEY("p", "\0\1p", "\xAA"), KEY("p1", "p", "\0\0\0\0\0\0"),
                                     KEY("\xC3\xA9", "", "\xFF\xFF\0")};

/* IDs that no sample has: longer, behind the beginning, other in its last byte or in case, cut within a character, not UTF-8, and
 * as an entry stands in a draft */
static const struct key others[] = {KEY("p12", "", ""), KEY("1", "", "b"), KEY("p2", "", ""), KEY("P1", "", ""),
                                    KEY("\xC3", "", ""), KEY("\xFF", "", ""), KEY("\0\1p", "", "")};

/* the ID of a key dropped from a draft of these keys */
static void drop_from(uint32_t version, size_t context, const struct key *keys, size_t count, const struct key *gone)
{
    struct key kept[4];
    size_t i, left = 0, room;
    const size_t n = draft_of(whole, version, context, keys, count);
    for (i = 0; i < count; i++) {
        if (!has_id(&keys[i], gone)) {
            kept[left++] = keys[i];
        }
    }
    for (room = 0; room < COUNT(rooms); room++) {
        if (left == 0) {
            drop_refused("no key remains", whole, n, rooms[room], gone, BAFIROLEN_REFUSED_NO_KEY_REMAINS, 0);
        } else {
            const size_t length = draft_of(wanted, version, context, kept, left);
            drops(left == count ? "no key has the ID" : "keys dropped", whole, n, rooms[room], gone, wanted, length);
        }
    }
}

/* a key added: into as many bytes as it takes, into more, and into fewer, which is refused */
static void add_to(uint32_t version, size_t context, const struct key *keys, size_t count, const struct key *k)
{
    struct key longer[5];
    const size_t n = draft_of(whole, version, context, keys, count), takes = taken_by(k);
    size_t length, room;
    memcpy(longer, keys, count * sizeof *keys);
    longer[count] = *k;
    length = draft_of(wanted, version, context, longer, count + 1);
    same("the longer draft", length, n + takes);
    for (room = 0; room < COUNT(rooms); room++) {
        adds("a key added", whole, n, takes + rooms[room], k, wanted, length);
    }
    add_refused("no room for a key", whole, n, 0, k, BAFIROLEN_REFUSED_OUTPUT_TOO_SHORT, 0);
    add_refused("a byte less than a key takes", whole, n, takes - 1, k, BAFIROLEN_REFUSED_OUTPUT_TOO_SHORT, 0);
}

/* a key whose ID no other has, added and dropped: the first bytes, and 00 behind them as far as the longer draft reached */
static void there_and_back(uint32_t version, size_t context, const struct key *keys, size_t count, const struct key *k)
{
    const size_t n = draft_of(whole, version, context, keys, count), takes = taken_by(k);
    uint8_t *buffer = lend_draft(whole, n, takes + 9);
    written_is("there", add(buffer, n + takes + 9, k), BAFIROLEN_ACCEPTED, n + takes);
    mended("and back", drop(buffer, n + takes + 9, k), buffer, n + takes, 9, whole, n);
    let_go();
}

/* all that is done with these keys in a draft */
static void with_keys(const struct key *keys, size_t count)
{
    uint32_t version;
    size_t context, i;
    for (version = 1; version <= 2; version++) {
        for (context = 0; context < COUNT(contexts); context++) {
            for (i = 0; i < COUNT(samples); i++) {
                drop_from(version, context, keys, count, &samples[i]);
                add_to(version, context, keys, count, &samples[i]);
            }
            for (i = 0; i < COUNT(others); i++) {
                drop_from(version, context, keys, count, &others[i]);
            }
            there_and_back(version, context, keys, count, &others[0]);
            there_and_back(version, context, keys, count, &others[2]);
        }
    }
}

/* every list of one to three samples, also with one of them twice */
static void lists(void)
{
    struct key keys[3];
    size_t i, k, l;
    for (i = 0; i < COUNT(samples); i++) {
        keys[0] = samples[i];
        with_keys(keys, 1);
        for (k = 0; k < COUNT(samples); k++) {
            keys[1] = samples[k];
            with_keys(keys, 2);
            for (l = 0; l < COUNT(samples); l++) {
                keys[2] = samples[l];
                with_keys(keys, 3);
            }
        }
    }
}

/* parts as long as an entry can be, so that what moves lies over where it moves to, and farther off */
static void long_parts(void)
{
    static uint8_t text[131072];
    const struct key longest = {{"p", text, text}, {1, 65535, 65535}}, name = {{text, "", ""}, {65535, 0, 0}};
    const struct key one_less = {{text, "", ""}, {65534, 0, 0}}, none = KEY("", "", "");
    /* longer than an ID can be, of which all that a 16-bit length counts is that of a key */
    const struct key one_more = {{text, "", ""}, {65536, 0, 0}}, twice = {{text, "", ""}, {131071, 0, 0}};
    struct key keys[3];
    memset(text, 'a', sizeof text);
    keys[0] = longest;
    keys[1] = name;
    keys[2] = samples[3];
    drop_from(1, 2, keys, 3, &longest);
    drop_from(2, 1, keys, 3, &name);
    drop_from(2, 0, keys, 3, &one_less);
    drop_from(2, 0, keys, 3, &one_more);
    drop_from(1, 2, keys, 3, &twice);
    keys[1] = none;
    drop_from(1, 2, keys, 3, &one_more);
    keys[1] = name;
    drop_from(1, 0, keys, 3, &keys[2]);
    drop_from(1, 1, keys, 2, &name);
    add_to(1, 1, keys + 1, 2, &longest);
    add_to(2, 2, keys, 1, &name);
    add_to(1, 2, keys, 3, &none);
    there_and_back(2, 1, keys + 1, 2, &longest);
}

/* the body has other keys: each `step`th has the ID "p", and the others have none */
static void put_other_keys(uint32_t count, uint32_t step)
{
    const uint8_t *letter = (const uint8_t *)"p";
    const size_t n = body.length - body.keys - 2;
    uint8_t back[64];
    uint32_t i;
    memcpy(back, body.bytes + body.keys + 2, n);
    body.length = body.keys;
    put_number(count, 2);
    for (i = 0; i < count; i++) {
        put_entry(letter, i % step == 0, body.key_table + 6 * i);
        put_entry(letter, 0, body.key_table + 6 * i + 2);
        put_entry(letter, 0, body.key_table + 6 * i + 4);
    }
    put(back, n);
}

/* what the writer makes of the body with these keys instead */
static size_t written_with(struct shape s, const uint32_t *keys, size_t numbers)
{
    static const uint8_t id_or_data[32];
    const BafirolenWritten w =
        bafirolen_write_header_body(numbers_of(s), id_or_data, s.version == 1 ? 16 : 32, id_or_data, s.version == 1 ? 0 : 32,
                                    body.bytes, body.length, body.pair_table, 4 * s.pairs, keys, numbers, wanted, LONGEST);
    same("a body that is wanted", w.number, BAFIROLEN_ACCEPTED);
    return w.length;
}

/* the keys with or without an ID, as the writer is lent them */
static size_t table_of(uint32_t *table, uint32_t count, uint32_t id_length)
{
    size_t numbers = 0;
    uint32_t i;
    for (i = 0; i < count; i++) {
        if (body.key_table[6 * i + 1] == id_length) {
            memcpy(table + numbers, body.key_table + 6 * i, 6 * sizeof *table);
            numbers += 6;
        }
    }
    return numbers;
}

/* many keys, of which those with an ID are dropped, or those without; and one added, where there can be one more */
static void many_keys(struct shape s, uint32_t count, uint32_t step)
{
    static uint32_t table[6 * MOST_KEYS];
    const struct key *none = &samples[0], letter = KEY("p", "", "");
    size_t numbers;
    build(s);
    put_other_keys(count, step);
    memcpy(whole, body.bytes, body.length);
    numbers = table_of(table, count, 0);
    if (numbers > 0) {
        drops("many keys, with an ID", whole, body.length, 9, &letter, wanted, written_with(s, table, numbers));
    } else {
        drop_refused("many keys, all with the ID", whole, body.length, 9, &letter, BAFIROLEN_REFUSED_NO_KEY_REMAINS, 0);
    }
    numbers = table_of(table, count, 1);
    drops("many keys, without an ID", whole, body.length, 0, none, wanted, written_with(s, table, numbers));
    if (count < MOST_KEYS) {
        memcpy(table, body.key_table, 6 * count * sizeof *table);
        memcpy(table + 6 * count, body.key_table, 6 * sizeof *table);
        adds("one more than many", whole, body.length, 9, &letter, wanted, written_with(s, table, 6 * count + 6));
    } else {
        add_refused("more than there can be", whole, body.length, 9, none, BAFIROLEN_REFUSED_COUNT_OR_PART_TOO_LONG, 0);
    }
}

int main(void)
{
    const struct shape first = {1, 3, 0, SHUFFLED, NO_FAULT, BAFIROLEN_TODAY};
    const struct shape second = {2, 0, 0, ASCENDING, NO_FAULT, BAFIROLEN_OLD};
    const struct shape paired = {2, 1025, 0, DESCENDING, NO_FAULT, BAFIROLEN_TODAY};
    lists();
    long_parts();
    many_keys(first, 255, 2);
    many_keys(second, 256, 7);
    many_keys(paired, 1000, 1000);
    many_keys(paired, 1000, 1);
    many_keys(second, MOST_KEYS - 1, 3);
    many_keys(first, MOST_KEYS, 2);
    many_keys(second, MOST_KEYS, 65534);
    return compared();
}
