/* Every export as a function without parameters, on the body and the frames that were built. */
#ifndef CALLS_H
#define CALLS_H

#include "bodies.h"
#include "compare.h"
#include "frames.h"

/* what a call is lent to change, and what it answers */
struct lent {
    uint32_t pairs[4 * MOST_PAIRS], keys[6 * MOST_KEYS], frames[6 * MOST_FRAMES];
    uint8_t out[sizeof frames.bytes > 2 * sizeof body.bytes + 28 ? sizeof frames.bytes : 2 * sizeof body.bytes + 28];
    union answered answer;
};

static struct lent *lent;
static struct shape shape;
static size_t pairs_len, keys_len, frames_len, out_len;
static const uint8_t *find_key;

static void version(void)
{
    lent->answer.number = bafirolen_version();
}

static void number(void)
{
    lent->answer.number = bafirolen_header_number(body.bytes, body.length, 0);
}

static void position(void)
{
    lent->answer.number = bafirolen_header_position(body.bytes, body.length, 0);
}

static void listing(void)
{
    lent->answer.written = bafirolen_write_listing(body.bytes, body.length, lent->out, out_len);
}

static void read_body(void)
{
    lent->answer.body = bafirolen_read_header_body(body.bytes, body.length, 0, BAFIROLEN_EITHER, BAFIROLEN_TOLERANT,
                                                   BAFIROLEN_NO_MAX, 0, lent->pairs, pairs_len, lent->keys, keys_len);
    clear_behind_numbers(&lent->answer.body);
}

static void read_body_under(void)
{
    lent->answer.body = bafirolen_read_header_body_under_policy(body.bytes, body.length, 0, BAFIROLEN_EITHER, BAFIROLEN_TOLERANT,
                                                                BAFIROLEN_NO_MAX, 0, policy_for(shape.version), lent->pairs,
                                                                pairs_len, lent->keys, keys_len);
    clear_behind_numbers(&lent->answer.body);
}

/* strict, where that accepts */
static void read_context(void)
{
    const uint32_t mode = shape.form == BAFIROLEN_OLD ? BAFIROLEN_TOLERANT : BAFIROLEN_STRICT;
    lent->answer.section = bafirolen_read_aad_section(body.bytes, body.length, body.context, mode, lent->pairs, pairs_len);
}

static void read_keys(void)
{
    lent->answer.section = bafirolen_read_encrypted_data_keys_section(body.bytes, body.length, body.keys, BAFIROLEN_AT_MOST,
                                                                      UINT64_MAX, lent->keys, keys_len);
}

static void read_frames(void)
{
    lent->answer.section = bafirolen_read_frames(frames.bytes, frames.length, 0, frames.frame_length, lent->frames, frames_len);
}

static void write_frames(void)
{
    lent->answer.written = bafirolen_write_frames(frames.frame_length, frames.bytes, frames.length, frames.table, 6 * frames.count,
                                                  lent->out, out_len);
}

static void frames_length(void)
{
    lent->answer.written =
        bafirolen_frames_len(frames.frame_length, frames.bytes, frames.length, frames.table, 6 * frames.count);
}

static void find(void)
{
    lent->answer.place = bafirolen_find_value(body.bytes, body.length, body.context, find_key, 2);
}

static void copy(void)
{
    lent->answer.written = bafirolen_copy_value(body.bytes, body.length, body.context, find_key, 2, lent->out, out_len);
}

static void read_record(void)
{
    lent->answer.auth = bafirolen_read_header_auth_tag(body.bytes, body.length, 4, numbers_of(shape).suite);
    clear_behind_tag(&lent->answer.auth);
}

static void write_record(void)
{
    lent->answer.written =
        bafirolen_write_header_auth_tag(numbers_of(shape).suite, body.bytes, 12, body.bytes, 16, lent->out, out_len);
}

static void write_context(void)
{
    lent->answer.written =
        bafirolen_write_aad_section(body.bytes, body.length, body.pair_table, 4 * shape.pairs, lent->out, out_len);
}

static void write_keys(void)
{
    lent->answer.written =
        bafirolen_write_encrypted_data_keys_section(body.bytes, body.length, body.key_table, 6 * shape.keys, lent->out, out_len);
}

static void write_body(void)
{
    const size_t other = shape.version == 1 ? 0 : 32;
    lent->answer.written =
        bafirolen_write_header_body(numbers_of(shape), body.bytes, shape.version == 1 ? 16 : 32, body.bytes, other, body.bytes,
                                    body.length, body.pair_table, 4 * shape.pairs, body.key_table, 6 * shape.keys, lent->out,
                                    out_len);
}

static void body_length(void)
{
    const size_t other = shape.version == 1 ? 0 : 32;
    lent->answer.written =
        bafirolen_header_body_len(numbers_of(shape), body.bytes, shape.version == 1 ? 16 : 32, body.bytes, other, body.bytes,
                                  body.length, body.pair_table, 4 * shape.pairs, body.key_table, 6 * shape.keys);
}

static void write_body_under(void)
{
    const size_t other = shape.version == 1 ? 0 : 32;
    lent->answer.written = bafirolen_write_header_body_under_policy(
        numbers_of(shape), policy_for(shape.version), body.bytes, shape.version == 1 ? 16 : 32, body.bytes, other, body.bytes,
        body.length, body.pair_table, 4 * shape.pairs, body.key_table, 6 * shape.keys, lent->out, out_len);
}

static void body_length_under(void)
{
    const size_t other = shape.version == 1 ? 0 : 32;
    lent->answer.written = bafirolen_header_body_len_under_policy(
        numbers_of(shape), policy_for(shape.version), body.bytes, shape.version == 1 ? 16 : 32, body.bytes, other, body.bytes,
        body.length, body.pair_table, 4 * shape.pairs, body.key_table, 6 * shape.keys);
}

/* every pair's key is required, so that every pair is sorted and written */
static void write_only_authenticated(void)
{
    lent->answer.written = bafirolen_write_only_authenticated(body.bytes, body.length, body.context, body.bytes, body.length,
                                                              body.required, 2 * shape.pairs, lent->out, out_len);
}

/* the body at the front of the output, as a draft: all keys with the ID of the first are dropped, so that just the last remains */
static void drop_keys(void)
{
    memcpy(lent->out, body.bytes, body.length);
    lent->answer.written =
        bafirolen_drop_encrypted_data_keys(lent->out, out_len, body.bytes + body.key_table[0], body.key_table[1]);
}

/* a key whose info and ciphertext are bytes of the body, which the draft was copied from */
static void add_key(void)
{
    memcpy(lent->out, body.bytes, body.length);
    lent->answer.written =
        bafirolen_add_encrypted_data_key(lent->out, out_len, (const uint8_t *)"new", 3, body.bytes, 4, body.bytes, 7);
}

/* with bytes of the body for what is added */
static void reissue(void)
{
    lent->answer.written = bafirolen_reissue_header_body(body.bytes, body.length, 0, 0x0578, body.bytes, 32, body.bytes + 1, 32,
                                                         lent->out, out_len);
}

static void reissued_length(void)
{
    lent->answer.written =
        bafirolen_reissued_header_body_len(body.bytes, body.length, 0, 0x0578, body.bytes, 32, body.bytes + 1, 32);
}

#endif
