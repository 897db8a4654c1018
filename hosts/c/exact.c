/*
 * Every operation on buffers that are exactly as long as it is told, each an allocation of its own, so that a memory checker sees
 * a read or a store beyond one. What is answered there is compared with the answer on buffers with room behind them. Writes
 * `compared N cases`; a difference is written to standard error, and the exit status is 1.
 *
 *     tools/archives
 *     gcc -std=c99 -O2 -Wall -Wextra -Iinclude hosts/c/exact.c target/staticlib/libbafirolen_c.a -o target/exact_c
 *     valgrind --error-exitcode=1 target/exact_c
 */
#include "drafts.h"
#include "reissues.h"

/* without a policy by the function that has none */
static BafirolenBody body_of(const uint8_t *m, size_t n, uint32_t which, uint32_t mode, uint32_t policy, uint32_t *p, size_t np,
                             uint32_t *k, size_t nk)
{
    return policy == BAFIROLEN_NO_POLICY
               ? bafirolen_read_header_body(m, n, 0, which, mode, BAFIROLEN_NO_MAX, 0, p, np, k, nk)
               : bafirolen_read_header_body_under_policy(m, n, 0, which, mode, BAFIROLEN_NO_MAX, 0, policy, p, np, k, nk);
}

/* the same body by exact buffers: message of n bytes, tables of np and nk numbers */
static void read_body(const uint8_t *m, size_t n, uint32_t which, uint32_t mode, size_t np, size_t nk)
{
    uint32_t *p, *k, policy;
    BafirolenBody exact, roomy;
    for (policy = BAFIROLEN_NO_POLICY; policy <= BAFIROLEN_REQUIRE_ENCRYPT_REQUIRE_DECRYPT; policy++) {
        fresh();
        p = lend(pairs, np * sizeof *p);
        k = lend(keys, nk * sizeof *k);
        exact = body_of(lend_const(m, n), n, which, mode, policy, p, np, k, nk);
        roomy = body_of(m, n, which, mode, policy, pairs, np, keys, nk);
        clear_behind_numbers(&exact);
        clear_behind_numbers(&roomy);
        same_bytes("a body", &exact, &roomy, sizeof exact);
        same_bytes("its pairs", p, pairs, np * sizeof *p);
        same_bytes("its keys", k, keys, nk * sizeof *k);
        let_go();
    }
}

/* the two sections, the record of a suite, one value, and what a host is told, at a start */
static void read_parts(const uint8_t *m, size_t n, uint64_t start, size_t np, size_t nk)
{
    static const char ab[] = "ab";
    const uint8_t *message = lend_const(m, n), *key = lend_const(ab, 2);
    uint32_t *p, *k;
    BafirolenSection s, t;
    BafirolenPlace f, g;
    BafirolenWritten c, d;
    uint8_t *v;
    BafirolenAuth a, b;
    fresh();
    p = lend(pairs, np * sizeof *p);
    k = lend(keys, nk * sizeof *k);
    s = bafirolen_read_aad_section(message, n, start, BAFIROLEN_TOLERANT, p, np);
    t = bafirolen_read_aad_section(m, n, start, BAFIROLEN_TOLERANT, pairs, np);
    same_bytes("a context section", &s, &t, sizeof s);
    same_bytes("its pairs", p, pairs, np * sizeof *p);
    s = bafirolen_read_encrypted_data_keys_section(message, n, start, BAFIROLEN_NO_MAX, 0, k, nk);
    t = bafirolen_read_encrypted_data_keys_section(m, n, start, BAFIROLEN_NO_MAX, 0, keys, nk);
    same_bytes("a key section", &s, &t, sizeof s);
    same_bytes("its keys", k, keys, nk * sizeof *k);
    f = bafirolen_find_value(message, n, start, key, 2);
    g = bafirolen_find_value(m, n, start, (const uint8_t *)"ab", 2);
    same_bytes("a value", &f, &g, sizeof f);
    v = lend(out, f.len);
    c = bafirolen_copy_value(message, n, start, key, 2, v, f.len);
    d = bafirolen_copy_value(m, n, start, (const uint8_t *)"ab", 2, out, BYTES);
    same_bytes("a copy", &c, &d, sizeof c);
    same_bytes("its bytes", v, out, f.len);
    a = bafirolen_read_header_auth_tag(message, n, start, 0x0178);
    b = bafirolen_read_header_auth_tag(m, n, start, 0x0178);
    same("a record", a.number, b.number);
    same("a record", a.position, b.position);
    same("a record", a.tail, b.tail);
    same_bytes("its IV", a.iv, b.iv, sizeof a.iv);
    same_bytes("its tag", a.tag, b.tag, sizeof a.tag);
    same("number", bafirolen_header_number(message, n, start), bafirolen_header_number(m, n, start));
    same("position", bafirolen_header_position(message, n, start), bafirolen_header_position(m, n, start));
    let_go();
}

/* frames of a length at a start, by exact buffers: message of n bytes, table of so many numbers */
static void read_frames(const uint8_t *m, size_t n, uint64_t start, uint32_t frame_length, size_t numbers)
{
    BafirolenSection exact, roomy;
    uint32_t *t;
    fresh();
    t = lend(keys, numbers * sizeof *t);
    exact = bafirolen_read_frames(lend_const(m, n), n, start, frame_length, t, numbers);
    roomy = bafirolen_read_frames(m, n, start, frame_length, keys, numbers);
    same_bytes("frames", &exact, &roomy, sizeof exact);
    same_bytes("their table", t, keys, numbers * sizeof *t);
    let_go();
}

/* what is authenticated of the context section at a start, for the keys "ab" and "a", into exactly its length */
static void authenticate(const uint8_t *m, size_t n, uint64_t start)
{
    static const uint8_t text[2] = {'a', 'b'};
    static const uint32_t required[4] = {0, 2, 0, 1};
    BafirolenWritten exact, roomy;
    uint8_t *o;
    fresh();
    roomy = bafirolen_write_only_authenticated(m, n, start, text, 2, required, 4, out, BYTES);
    o = lend(fresh_bytes, roomy.length);
    exact = bafirolen_write_only_authenticated(lend_const(m, n), n, start, lend_const(text, 2), 2,
                                               lend_const(required, sizeof required), 4, o, roomy.length);
    same_bytes("what is authenticated", &exact, &roomy, sizeof exact);
    same_bytes("its bytes", o, out, roomy.length);
    let_go();
}

/* every cut of a header that has np pairs and nk keys, with tables that just hold them and tables that just don't */
static void read_cuts(const uint8_t *m, size_t n, size_t np, size_t nk)
{
    uint64_t start;
    size_t cut;
    for (cut = 0; cut <= n; cut++) {
        read_body(m, cut, BAFIROLEN_EITHER, BAFIROLEN_TOLERANT, 4 * np, 6 * nk);
        read_body(m, cut, BAFIROLEN_V1_ONLY, BAFIROLEN_STRICT, 4 * np, 6 * nk - 1);
        read_body(m, cut, BAFIROLEN_V2_ONLY, BAFIROLEN_STRICT, 4 * np - 1, 6 * nk);
        read_body(m, cut, BAFIROLEN_EITHER, BAFIROLEN_STRICT, 0, 0);
        for (start = 0; start <= cut + 1; start++) {
            read_parts(m, cut, start, 4 * np, 6 * nk);
            authenticate(m, cut, start);
        }
    }
}

/* every cut of two frames, by lengths about theirs, with a table that just holds them and one that just doesn't */
static void read_frame_cuts(void)
{
    static const uint32_t lengths[] = {0, 1, 2, 3, 4, 20, UINT32_MAX};
    size_t start, cut, i;
    for (cut = 0; cut <= sizeof RUN; cut++) {
        for (i = 0; i < COUNT(lengths); i++) {
            for (start = 0; start <= cut + 1; start++) {
                read_frames(RUN, cut, start, lengths[i], 12);
            }
            read_frames(RUN, cut, 0, lengths[i], 11);
        }
    }
}

/* a header with every length of its context section up to one more than is right, cut where the section then ends: where a part
 * would end past it, no byte there is looked at */
static void read_past_section(const uint8_t *header, size_t n, size_t section, size_t np, size_t nk)
{
    uint8_t m[sizeof V2], length;
    memcpy(m, header, n);
    for (length = 1; length <= header[section + 1] + 1; length++) {
        const size_t end = section + 2 + length;
        m[section + 1] = length;
        read_body(m, end, BAFIROLEN_EITHER, BAFIROLEN_TOLERANT, 4 * np, 6 * nk);
        read_parts(m, end, section, 4 * np, 6 * nk);
        authenticate(m, end, section);
    }
}

/* a header that was read, measured and written again at every room up to a few bytes more than its length; and the same under a
 * policy that writes its version */
static void write_again(const uint8_t *m, size_t n)
{
    BafirolenBody b;
    BafirolenWritten w;
    const uint8_t *text, *id, *data;
    const uint32_t *p, *k, policy = policy_for(m[0]);
    size_t room;
    fresh();
    b = bafirolen_read_header_body(m, n, 0, BAFIROLEN_EITHER, BAFIROLEN_TOLERANT, BAFIROLEN_NO_MAX, 0, pairs, NUMBERS, keys,
                                   NUMBERS);
    same("a header", b.number, BAFIROLEN_ACCEPTED);
    same("its form", b.numbers.form, form_of(m));
    for (room = 0; room <= n + 3; room++) {
        uint8_t *o = lend(fresh_bytes, room);
        text = lend_const(m, n);
        id = lend_const(m + b.messageIdStart, b.messageIdLen);
        data = lend_const(m + b.suiteDataStart, b.suiteDataLen);
        p = lend_const(pairs, 16 * b.pairCount);
        k = lend_const(keys, 24 * b.keyCount);
        w = bafirolen_header_body_len(b.numbers, id, b.messageIdLen, data, b.suiteDataLen, text, n, p, 4 * b.pairCount, k,
                                      6 * b.keyCount);
        written_is("the length of a header", w, 0, n);
        w = bafirolen_write_header_body(b.numbers, id, b.messageIdLen, data, b.suiteDataLen, text, n, p, 4 * b.pairCount, k,
                                        6 * b.keyCount, o, room);
        holds("a header", w, o, room, m, n);
        w = bafirolen_header_body_len_under_policy(b.numbers, policy, id, b.messageIdLen, data, b.suiteDataLen, text, n, p,
                                                   4 * b.pairCount, k, 6 * b.keyCount);
        written_is("the length of a header under a policy", w, 0, n);
        w = bafirolen_write_header_body_under_policy(b.numbers, policy, id, b.messageIdLen, data, b.suiteDataLen, text, n, p,
                                                     4 * b.pairCount, k, 6 * b.keyCount, o, room);
        holds("a header under a policy", w, o, room, m, n);
        let_go();
    }
}

/* the two frames measured and written again at every room up to a few bytes more than their length */
static void write_frames_again(void)
{
    size_t room;
    fresh();
    for (room = 0; room <= sizeof RUN + 3; room++) {
        uint8_t *o = lend(fresh_bytes, room);
        const uint8_t *text = lend_const(RUN, sizeof RUN);
        const uint32_t *t = lend_const(RUN_table, sizeof RUN_table);
        written_is("the length of frames", bafirolen_frames_len(3, text, sizeof RUN, t, 12), 0, sizeof RUN);
        holds("frames", bafirolen_write_frames(3, text, sizeof RUN, t, 12, o, room), o, room, RUN, sizeof RUN);
        let_go();
    }
}

/* a context section, what is authenticated of it, a key section, a record and a listing at every room up to their lengths */
static void write_parts(void)
{
    static const uint8_t record[28] = {1,  2,  3,  4,  5,  6,  7,  8,  9,  10, 11, 12, 13, 14,
                                       15, 16, 17, 18, 19, 20, 21, 22, 23, 24, 25, 26, 27, 28};
    size_t room;
    uint8_t *o;
    const uint8_t *text;
    BafirolenWritten w;
    fresh();
    for (room = 0; room <= 28; room++) {
        o = lend(fresh_bytes, room);
        text = lend_const(H, 58);
        w = bafirolen_write_aad_section(text, 58, lend_const(H_pairs, sizeof H_pairs), 4, o, room);
        holds("a context section", w, o, room, H + 20, 14);
        w = bafirolen_write_only_authenticated(text, 58, 20, text, 58, lend_const(H_pairs, 2 * sizeof *H_pairs), 2, o, room);
        holds("what is authenticated", w, o, room, H + 22, 12);
        w = bafirolen_write_encrypted_data_keys_section(text, 58, lend_const(H_keys, sizeof H_keys), 6, o, room);
        holds("a key section", w, o, room, H + 34, 14);
        w = bafirolen_write_encrypted_data_keys_section(text, 58, lend_const(H_keys, 0), 0, o, room);
        written_is("no key", w, BAFIROLEN_REFUSED_NO_ENCRYPTED_DATA_KEY, 0);
        same_bytes("no key", o, fresh_bytes, room);
        w = bafirolen_write_header_auth_tag(0x0014, lend_const(record, 12), 12, lend_const(record + 12, 16), 16, o, room);
        holds("a record", w, o, room, record, 28);
        let_go();
    }
    for (room = 0; room <= 102; room++) {
        o = lend(fresh_bytes, room);
        w = bafirolen_write_listing(lend_const(H, 58), 58, o, room);
        holds("a listing", w, o, room, H_listing, 102);
        let_go();
    }
}

/* every cut of a draft, and buffers with some room behind it: keys that it has or has not are dropped, and each is added */
static void mend_cuts(const uint8_t *header, size_t n)
{
    static const struct key asked[] = {KEY("p1", "a", "\xAA\xBB\xCC"), KEY("p", "", "\xAA"), KEY("", "", ""), KEY("\xFF", "", "")};
    uint8_t m[BYTES];
    size_t i, cut;
    memset(m, KEPT, sizeof m);
    memcpy(m, header, n);
    for (i = 0; i < COUNT(asked); i++) {
        for (cut = 0; cut <= n + 20; cut++) {
            mends_alike(m, cut, &asked[i]);
        }
    }
}

int main(void)
{
    uint8_t old[sizeof V2], keyless[sizeof V2], two[BYTES];
    static const struct key both[] = {KEY("p1", "", "\xAA"), KEY("p", "a", "")};
    size_t length;
    read_cuts(H, sizeof H, 1, 1);
    read_cuts(V2, sizeof V2, 2, 2);
    read_cuts(keyless, header_of(keyless, 1, H + 20, 14, "\0\0", 2), 1, 1);
    read_past_section(H, sizeof H, 20, 1, 1);
    read_past_section(V2, sizeof V2, 35, 2, 2);
    write_again(H, sizeof H);
    write_again(V2, sizeof V2);
    length = in_old_form(H, sizeof H, 20, old);
    read_cuts(old, length, 1, 1);
    write_again(old, length);
    mend_cuts(old, length);
    reissue_cuts(old, length);
    write_again(old, in_old_form(V2, sizeof V2, 35, old));
    write_parts();
    read_frame_cuts();
    write_frames_again();
    mend_cuts(H, sizeof H);
    mend_cuts(V2, sizeof V2);
    mend_cuts(two, draft_of(two, 1, 1, both, 2));
    reissue_cuts(H, sizeof H);
    reissue_cuts(V2, sizeof V2);
    reissue_cuts(two, draft_of(two, 1, 2, both, 2));
    return compared();
}
