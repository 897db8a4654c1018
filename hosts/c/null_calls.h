/* Every export but bafirolen_version as a function without parameters, on a header or on two frames, of which each set of the lent
 * parts can be left empty. */
#ifndef NULL_CALLS_H
#define NULL_CALLS_H

#include "hollow.h"

static const struct header *h;

/* which of a call's lent parts are empty, in their order, and the pointer that those have */
static unsigned empty;
static void *empty_part;

#define LENT(part, bytes, length) (empty >> (part)&1 ? empty_part : (void *)(bytes)), (empty >> (part)&1 ? 0 : (length))
#define MESSAGE LENT(0, h->bytes, h->length)

static struct answer {
    union answered record;
    uint32_t pairs[NUMBERS], keys[NUMBERS];
    uint8_t out[BYTES];
} answer;

static void number(void)
{
    answer.record.number = bafirolen_header_number(MESSAGE, 0);
}

static void position(void)
{
    answer.record.number = bafirolen_header_position(MESSAGE, 0);
}

static void listing(void)
{
    answer.record.written = bafirolen_write_listing(MESSAGE, LENT(1, out, BYTES));
}

static void read_body(void)
{
    answer.record.body = bafirolen_read_header_body(MESSAGE, 0, BAFIROLEN_EITHER, BAFIROLEN_TOLERANT, BAFIROLEN_NO_MAX, 0,
                                                    LENT(1, pairs, NUMBERS), LENT(2, keys, NUMBERS));
    clear_behind_numbers(&answer.record.body);
}

static void read_body_under(void)
{
    answer.record.body = bafirolen_read_header_body_under_policy(
        MESSAGE, 0, BAFIROLEN_EITHER, BAFIROLEN_TOLERANT, BAFIROLEN_NO_MAX, 0, BAFIROLEN_REQUIRE_ENCRYPT_ALLOW_DECRYPT,
        LENT(1, pairs, NUMBERS), LENT(2, keys, NUMBERS));
    clear_behind_numbers(&answer.record.body);
}

static void read_context(void)
{
    answer.record.section = bafirolen_read_aad_section(MESSAGE, h->context, BAFIROLEN_TOLERANT, LENT(1, pairs, NUMBERS));
}

static void read_keys(void)
{
    answer.record.section =
        bafirolen_read_encrypted_data_keys_section(MESSAGE, h->keys, BAFIROLEN_NO_MAX, 0, LENT(1, keys, NUMBERS));
}

static void read_record(void)
{
    answer.record.auth = bafirolen_read_header_auth_tag(MESSAGE, 0, h->numbers.suite);
    clear_behind_tag(&answer.record.auth);
}

static void read_frames(void)
{
    answer.record.section = bafirolen_read_frames(LENT(0, RUN, sizeof RUN), 0, 3, LENT(1, keys, NUMBERS));
}

static void write_frames(void)
{
    answer.record.written =
        bafirolen_write_frames(3, LENT(0, RUN, sizeof RUN), LENT(1, RUN_table, COUNT(RUN_table)), LENT(2, out, BYTES));
}

static void frames_length(void)
{
    answer.record.written = bafirolen_frames_len(3, LENT(0, RUN, sizeof RUN), LENT(1, RUN_table, COUNT(RUN_table)));
}

static void find(void)
{
    answer.record.place = bafirolen_find_value(MESSAGE, h->context, LENT(1, h->key, strlen(h->key)));
}

static void copy(void)
{
    answer.record.written = bafirolen_copy_value(MESSAGE, h->context, LENT(1, h->key, strlen(h->key)), LENT(2, out, BYTES));
}

static void write_context(void)
{
    answer.record.written = bafirolen_write_aad_section(MESSAGE, LENT(1, h->pair_table, h->pair_numbers), LENT(2, out, BYTES));
}

static void write_keys(void)
{
    answer.record.written =
        bafirolen_write_encrypted_data_keys_section(MESSAGE, LENT(1, h->key_table, h->key_numbers), LENT(2, out, BYTES));
}

static void write_record(void)
{
    answer.record.written =
        bafirolen_write_header_auth_tag(h->numbers.suite, LENT(0, H, 12), LENT(1, H + 12, 16), LENT(2, out, BYTES));
}

/* the parts in another order than the parameters, so that the text is part 0 as in the other writers */
static void write_body(void)
{
    answer.record.written = bafirolen_write_header_body(
        h->numbers, LENT(3, h->bytes + h->id, h->id_length), LENT(4, h->bytes + h->data, h->data_length), MESSAGE,
        LENT(1, h->pair_table, h->pair_numbers), LENT(5, h->key_table, h->key_numbers), LENT(2, out, BYTES));
}

static void body_length(void)
{
    answer.record.written = bafirolen_header_body_len(
        h->numbers, LENT(2, h->bytes + h->id, h->id_length), LENT(3, h->bytes + h->data, h->data_length), MESSAGE,
        LENT(1, h->pair_table, h->pair_numbers), LENT(4, h->key_table, h->key_numbers));
}

static void write_body_under(void)
{
    answer.record.written = bafirolen_write_header_body_under_policy(
        h->numbers, policy_for(h->numbers.version), LENT(3, h->bytes + h->id, h->id_length),
        LENT(4, h->bytes + h->data, h->data_length), MESSAGE, LENT(1, h->pair_table, h->pair_numbers),
        LENT(5, h->key_table, h->key_numbers), LENT(2, out, BYTES));
}

static void body_length_under(void)
{
    answer.record.written = bafirolen_header_body_len_under_policy(
        h->numbers, policy_for(h->numbers.version), LENT(2, h->bytes + h->id, h->id_length),
        LENT(3, h->bytes + h->data, h->data_length), MESSAGE, LENT(1, h->pair_table, h->pair_numbers),
        LENT(4, h->key_table, h->key_numbers));
}

/* the key to find is all that is required */
static void write_only_authenticated(void)
{
    const uint32_t required[2] = {0, (uint32_t)strlen(h->key)};
    answer.record.written = bafirolen_write_only_authenticated(MESSAGE, h->context, LENT(1, h->key, strlen(h->key)),
                                                               LENT(2, required, COUNT(required)), LENT(3, out, BYTES));
}

/* the header at the front of the output, which is the buffer of a draft; an ID that it does not have, so that a key remains */
static void drop_keys(void)
{
    memcpy(out, h->bytes, h->length);
    answer.record.written = bafirolen_drop_encrypted_data_keys(LENT(0, out, BYTES), LENT(1, "absent", 6));
}

static void add_key(void)
{
    memcpy(out, h->bytes, h->length);
    answer.record.written =
        bafirolen_add_encrypted_data_key(LENT(0, out, BYTES), LENT(1, "p2", 2), LENT(2, "b", 1), LENT(3, "\xDD", 1));
}

static void reissue(void)
{
    answer.record.written =
        bafirolen_reissue_header_body(MESSAGE, 0, 0x0578, LENT(1, H, 32), LENT(2, H + 26, 32), LENT(3, out, BYTES));
}

static void reissued_length(void)
{
    answer.record.written = bafirolen_reissued_header_body_len(MESSAGE, 0, 0x0578, LENT(1, H, 32), LENT(2, H + 26, 32));
}

static const struct export {
    const char *name;
    void (*call)(void);
    unsigned parts;
} exports[] = {{"bafirolen_header_number", number, 1},
               {"bafirolen_header_position", position, 1},
               {"bafirolen_write_listing", listing, 2},
               {"bafirolen_read_header_body", read_body, 3},
               {"bafirolen_read_aad_section", read_context, 2},
               {"bafirolen_read_encrypted_data_keys_section", read_keys, 2},
               {"bafirolen_read_header_auth_tag", read_record, 1},
               {"bafirolen_read_frames", read_frames, 2},
               {"bafirolen_write_frames", write_frames, 3},
               {"bafirolen_frames_len", frames_length, 2},
               {"bafirolen_find_value", find, 2},
               {"bafirolen_copy_value", copy, 3},
               {"bafirolen_write_aad_section", write_context, 3},
               {"bafirolen_write_encrypted_data_keys_section", write_keys, 3},
               {"bafirolen_write_header_auth_tag", write_record, 3},
               {"bafirolen_write_header_body", write_body, 6},
               {"bafirolen_header_body_len", body_length, 5},
               {"bafirolen_read_header_body_under_policy", read_body_under, 3},
               {"bafirolen_write_header_body_under_policy", write_body_under, 6},
               {"bafirolen_header_body_len_under_policy", body_length_under, 5},
               {"bafirolen_write_only_authenticated", write_only_authenticated, 4},
               {"bafirolen_drop_encrypted_data_keys", drop_keys, 2},
               {"bafirolen_add_encrypted_data_key", add_key, 4},
               {"bafirolen_reissue_header_body", reissue, 4},
               {"bafirolen_reissued_header_body_len", reissued_length, 3}};

#endif
