/*
 * A message in pieces: what an operation answers to each beginning of it, held to the promises of bafirolen_fetch.h, and the loop
 * that stands there. Each part is an allocation of exactly the bytes that are lent.
 */
#ifndef FETCHING_H
#define FETCHING_H

#include "lending.h"

#define LONGEST 400

/* what is asked of a message at a start; `number` is a policy, a suite or a frame length, `room` the length of each table */
struct asked {
    enum { BODY, CONTEXT, KEYS, FRAMES, RECORD, VALUE, ONLY_AUTHENTICATED } of;
    uint64_t start;
    uint32_t which, mode, number;
    size_t room;
};

/* what is answered to it, and what is then in all that was lent; a value has no tail, nor has what is written */
struct told {
    union answered answer;
    uint64_t number, position, tail;
    uint32_t pairs[NUMBERS], keys[NUMBERS];
    uint8_t out[BYTES];
};

static BafirolenBody body_of(const struct asked *a, const uint8_t *m, size_t n, uint32_t *p, uint32_t *k)
{
    return a->number == BAFIROLEN_NO_POLICY
               ? bafirolen_read_header_body(m, n, a->start, a->which, a->mode, BAFIROLEN_NO_MAX, 0, p, a->room, k, a->room)
               : bafirolen_read_header_body_under_policy(m, n, a->start, a->which, a->mode, BAFIROLEN_NO_MAX, 0, a->number, p,
                                                         a->room, k, a->room);
}

static void call(const struct asked *a, const uint8_t *m, size_t n, uint32_t *p, uint32_t *k, uint8_t *o, struct told *t)
{
    static const uint8_t lang[4] = {'l', 'a', 'n', 'g'};
    static const uint32_t required[2] = {0, 4};
    switch (a->of) {
    case BODY:
        t->answer.body = body_of(a, m, n, p, k);
        clear_behind_numbers(&t->answer.body);
        t->tail = t->answer.body.tail;
        break;
    case CONTEXT:
        t->answer.section = bafirolen_read_aad_section(m, n, a->start, a->mode, p, a->room);
        t->tail = t->answer.section.tail;
        break;
    case KEYS:
        t->answer.section = bafirolen_read_encrypted_data_keys_section(m, n, a->start, BAFIROLEN_NO_MAX, 0, k, a->room);
        t->tail = t->answer.section.tail;
        break;
    case FRAMES:
        t->answer.section = bafirolen_read_frames(m, n, a->start, a->number, k, a->room);
        t->tail = t->answer.section.tail;
        break;
    case RECORD:
        t->answer.auth = bafirolen_read_header_auth_tag(m, n, a->start, a->number);
        clear_behind_tag(&t->answer.auth);
        t->tail = t->answer.auth.tail;
        break;
    case VALUE:
        t->answer.place = bafirolen_find_value(m, n, a->start, lang, 4);
        break;
    case ONLY_AUTHENTICATED:
        t->answer.written = bafirolen_write_only_authenticated(m, n, a->start, lang, 4, required, 2, o, BYTES);
        break;
    }
}

/* by exact allocations; a refusal leaves what it was lent as it was */
static struct told ask(const struct asked *a, const uint8_t *m, size_t n)
{
    const size_t size = a->room * sizeof *pairs;
    struct told t;
    uint32_t *p, *k;
    uint8_t *o;
    memset(&t, 0, sizeof t);
    fresh();
    p = lend(fresh_numbers, size);
    k = lend(fresh_numbers, size);
    o = lend(fresh_bytes, BYTES);
    call(a, lend_const(m, n), n, p, k, o, &t);
    /* each record begins with these two */
    t.number = t.answer.written.number;
    t.position = t.answer.written.position;
    memcpy(t.pairs, p, size);
    memcpy(t.keys, k, size);
    memcpy(t.out, o, BYTES);
    if (t.number != BAFIROLEN_ACCEPTED) {
        same_bytes("the pairs of what is refused", p, fresh_numbers, size);
        same_bytes("the keys of what is refused", k, fresh_numbers, size);
        same_bytes("the output of what is refused", o, fresh_bytes, BYTES);
    }
    let_go();
    return t;
}

/* the answers to the beginnings of a message, by their lengths */
static struct told told[LONGEST + 1];

static int is_short(size_t n)
{
    return told[n].number == BAFIROLEN_REFUSED_SHORTAGE;
}

/* what is promised of the answer to n bytes of a message beside that to w, which are no fewer */
static void promised(const char *what, size_t n, size_t w)
{
    if (!is_short(n)) {
        same_bytes(what, &told[w], &told[n], sizeof told[n]);
        return;
    }
    same(what, told[n].position > n, 1);
    if (w < told[n].position) {
        same(what, is_short(w), 1);
        same(what, told[w].position, told[n].position);
    } else {
        same(what, is_short(w) && told[w].position <= told[n].position, 0);
    }
    if (told[w].number == BAFIROLEN_ACCEPTED && told[w].tail != 0) {
        same(what, told[n].position <= told[w].tail, 1);
    }
}

/* a source that gives a message in pieces, and keeps up to where it was asked for it */
struct source {
    const uint8_t *bytes;
    size_t length, piece, given, asked;
};

static size_t more(struct source *s, uint8_t *room, size_t wanted)
{
    const size_t rest = s->length - s->given, most = wanted < s->piece ? wanted : s->piece, n = rest < most ? rest : most;
    same("bytes are asked for", wanted > 0, 1);
    s->asked = s->given + wanted;
    memcpy(room, s->bytes + s->given, n);
    s->given += n;
    return n;
}

/* the loop of bafirolen_fetch.h */
static struct told by_what_is_wanted(const struct asked *a, struct source *s, uint64_t *rounds)
{
    uint8_t buffer[LONGEST];
    size_t held = 0, got;
    struct told t;
    *rounds = 0;
    for (;;) {
        t = ask(a, buffer, held);
        if (t.number != BAFIROLEN_REFUSED_SHORTAGE || t.position > sizeof buffer) {
            return t;
        }
        ++*rounds;
        while (held < t.position && (got = more(s, buffer + held, (size_t)t.position - held)) > 0) {
            held += got;
        }
        if (held < t.position) {
            return t;
        }
    }
}

/* asks whenever something has come, whatever is wanted */
static struct told as_it_comes(const struct asked *a, struct source *s)
{
    uint8_t buffer[LONGEST];
    size_t held = 0, got;
    struct told t;
    do {
        t = ask(a, buffer, held);
        got = t.number == BAFIROLEN_REFUSED_SHORTAGE ? more(s, buffer + held, s->piece) : 0;
        held += got;
    } while (got > 0);
    return t;
}

/* of what was read to its end, how many rounds that takes at most */
static uint64_t most_rounds(const struct asked *a, const struct told *t)
{
    switch (a->of) {
    case BODY:
        return BAFIROLEN_MOST_ROUNDS(t->answer.body.keyCount) - (t->answer.body.numbers.version == 2 ? 2 : 0);
    case KEYS:
        return 1 + 6 * t->answer.section.count;
    case FRAMES:
        return BAFIROLEN_MOST_FRAME_ROUNDS(t->answer.section.count);
    default:
        return 2;
    }
}

/* as many bytes are asked for as get an answer at all, and no more; where there are too few, they are asked for up to the last
 * position that the buffer has room for */
static void fetched(const char *what, const struct asked *a, const uint8_t *m, size_t length, size_t least, uint64_t changes)
{
    static const size_t pieces[] = {1, 7, LONGEST};
    uint64_t rounds;
    struct told t;
    size_t i;
    for (i = 0; i < COUNT(pieces); i++) {
        struct source s = {m, length, pieces[i], 0, 0}, all = s;
        t = by_what_is_wanted(a, &s, &rounds);
        same_bytes(what, &t, &told[length], sizeof t);
        same(what, rounds, changes);
        if (told[length].position <= LONGEST) {
            same(what, s.given, least);
            same(what, s.asked, is_short(length) ? told[length].position : least);
        }
        t = as_it_comes(a, &all);
        same_bytes(what, &t, &told[length], sizeof t);
    }
}

/* all beginnings of a message, and the message in pieces; in how many rounds it came */
static uint64_t fed(const char *what, const struct asked *a, const uint8_t *m, size_t length)
{
    uint64_t changes = 0;
    size_t n, w, least = length;
    for (n = 0; n <= length; n++) {
        told[n] = ask(a, m, n);
    }
    for (n = length + 1; n-- > 0;) {
        least = is_short(n) ? least : n;
        /* a round ends where another position is wanted than with a byte less */
        changes += is_short(n) && told[n].position <= LONGEST && (n == 0 || told[n].position != told[n - 1].position);
        for (w = n; w <= length; w++) {
            promised(what, n, w);
        }
    }
    if (told[length].number == BAFIROLEN_ACCEPTED) {
        same(what, changes <= most_rounds(a, &told[length]), 1);
        same(what, told[length].tail == 0 || told[length].tail == least, 1);
    }
    fetched(what, a, m, length, least, changes);
    return changes;
}

#endif
