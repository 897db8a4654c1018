/*
 * The keys of two stations dropped from a draft in either order. Where a key remains after both, the same bytes and the same tail
 * are left; where none does, 40 is answered to one of the two in either order, and what is left depends on which came first.
 */
#ifndef IN_TURN_H
#define IN_TURN_H

#include "drafts.h"

/* keys of a draft, two IDs, and for each order what both drops answer, 40 where no key would remain, and which of the keys are
 * left then, by their bits */
static const struct station_row {
    const char *what;
    struct key keys[4];
    size_t count;
    struct key ids[2];
    uint64_t numbers[2][2];
    unsigned left[2];
} station_rows[] = {
    {"a third remains", {KEY("p1", "", "a"), KEY("p2", "b", ""), KEY("p3", "", "c")}, 3, {KEY("p1", "", ""), KEY("p2", "", "")},
     {{0, 0}, {0, 0}}, {4, 4}},
    {"several of each", {KEY("p2", "", "p1"), KEY("p3", "p2", ""), KEY("p1", "", "c"), KEY("p2", "d", "d")}, 4,
     {KEY("p1", "", ""), KEY("p2", "", "")}, {{0, 0}, {0, 0}}, {2, 2}},
    {"one begins the other", {KEY("p", "", ""), KEY("p12", "\0\1p", ""), KEY("p1", "", "p"), KEY("p", "x", "")}, 4,
     {KEY("p", "", ""), KEY("p1", "", "")}, {{0, 0}, {0, 0}}, {2, 2}},
    {"an ID is empty", {KEY("", "", ""), KEY("p1", "", ""), KEY("p", "", "")}, 3, {KEY("", "", ""), KEY("p", "", "")},
     {{0, 0}, {0, 0}}, {2, 2}},
    {"one is absent", {KEY("p1", "", "a"), KEY("\xC3\xA9", "b", "")}, 2, {KEY("p1", "", ""), KEY("\xC3", "", "")},
     {{0, 0}, {0, 0}}, {2, 2}},
    {"both are absent", {KEY("p1", "", "a"), KEY("p2", "b", "")}, 2, {KEY("p", "", ""), KEY("\xFF", "", "")},
     {{0, 0}, {0, 0}}, {3, 3}},
    {"one twice", {KEY("p1", "", "a"), KEY("p2", "b", "")}, 2, {KEY("p2", "", ""), KEY("p2", "", "")}, {{0, 0}, {0, 0}}, {1, 1}},
    {"both are there and no third", {KEY("p1", "", "a"), KEY("p2", "b", ""), KEY("p1", "c", "")}, 3,
     {KEY("p1", "", ""), KEY("p2", "", "")}, {{0, 40}, {0, 40}}, {2, 5}},
    {"both are there, one is empty", {KEY("p", "", ""), KEY("", "", "")}, 2, {KEY("", "", ""), KEY("p", "", "")},
     {{0, 40}, {0, 40}}, {1, 2}},
    {"every key has the first", {KEY("p1", "", "a"), KEY("p1", "", "a")}, 2, {KEY("p1", "", ""), KEY("p2", "", "")},
     {{40, 0}, {0, 40}}, {3, 3}},
    {"every key has the second, which the first begins", {KEY("p1", "", "a")}, 1, {KEY("p", "", ""), KEY("p1", "", "")},
     {{0, 40}, {40, 0}}, {1, 1}},
    {"every key has the one", {KEY("p1", "", "a"), KEY("p1", "b", "")}, 2, {KEY("p1", "", ""), KEY("p1", "", "")},
     {{40, 40}, {40, 40}}, {3, 3}}};

/* both drops in this order from a draft of n bytes, and the buffer after both, which is still lent */
static inline const uint8_t *in_turn(const struct station_row *r, size_t order, const uint8_t *draft, size_t n, size_t room,
                                     const uint8_t *wanted, size_t length)
{
    uint8_t *buffer = lend_draft(draft, n, room);
    const uint64_t *numbers = r->numbers[order];
    size_t i, tail = n;
    for (i = 0; i < r->count; i++) {
        tail -= has_id(&r->keys[i], &r->ids[order]) ? taken_by(&r->keys[i]) : 0;
    }
    written_is(r->what, drop(buffer, n + room, &r->ids[order]), numbers[0], numbers[0] == 0 ? tail : 0);
    written_is(r->what, drop(buffer, n + room, &r->ids[1 - order]), numbers[1], numbers[1] == 0 ? length : 0);
    same_bytes(r->what, buffer, wanted, length);
    all_cleared(r->what, buffer, length, n);
    all_kept(r->what, buffer, n, n + room);
    return buffer;
}

/* the draft with the keys that are left: its length */
static inline size_t left_of(uint8_t *m, uint32_t version, size_t context, const struct station_row *r, unsigned left)
{
    struct key keys[4];
    size_t i, count = 0;
    for (i = 0; i < r->count; i++) {
        if (left >> i & 1) {
            keys[count++] = r->keys[i];
        }
    }
    return draft_of(m, version, context, keys, count);
}

/* in both orders, whatever is behind the draft: the buffers are the same exactly where the same keys are left */
static inline void in_both_orders(const struct station_row *r, uint32_t version, size_t context)
{
    static const size_t rooms[] = {0, 1, 50};
    static uint8_t whole[256], wanted[2][256];
    const size_t n = draft_of(whole, version, context, r->keys, r->count);
    const uint8_t *after[2];
    size_t room, order, lengths[2];
    for (room = 0; room < COUNT(rooms); room++) {
        for (order = 0; order < 2; order++) {
            lengths[order] = left_of(wanted[order], version, context, r, r->left[order]);
            after[order] = in_turn(r, order, whole, n, rooms[room], wanted[order], lengths[order]);
        }
        same(r->what, memcmp(after[0], after[1], n + rooms[room]) == 0, r->left[0] == r->left[1]);
        let_go();
    }
}

static inline void dropped(void)
{
    size_t i, context;
    uint32_t version;
    for (i = 0; i < COUNT(station_rows); i++) {
        for (version = 1; version <= 2; version++) {
            for (context = 0; context < COUNT(contexts); context++) {
                in_both_orders(&station_rows[i], version, context);
            }
        }
    }
}

#endif
