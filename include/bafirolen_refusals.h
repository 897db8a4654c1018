/*
 * The refusals by their numbers, and in words, and what to do with each. bafirolen.h includes this. A number keeps its meaning from
 * one version to the next; later versions may have more of them. Stored bytes are given in hexadecimal (80, 01), counts in decimal.
 *
 * WHAT TO DO WITH A REFUSAL.
 *
 * BAFIROLEN_REFUSED_SHORTAGE: fetch until the message has at least `position` bytes, the end of the next field, and call again;
 * bafirolen_fetch.h has the loop, and what is promised meanwhile. If no more will come, or `position` is above 4,294,967,295,
 * reject the message. Set a limit: lengths in a message may claim what never comes. No part of a context is waited for past its
 * section: where it claims to end there, the message is damaged, and is refused by 32 as soon as the section is there.
 *
 * BAFIROLEN_REFUSED_PAIR_TABLE_TOO_SHORT, .._KEY_TABLE_TOO_SHORT, .._OUTPUT_TOO_SHORT: lend more, and call again. The answer does
 * not say how much: lend twice as much, or a table of BAFIROLEN_LARGEST_PAIR_TABLE or BAFIROLEN_LARGEST_KEY_TABLE numbers, or of
 * as many as bafirolen_frame_table_len gives for frames. How long an output has to be, bafirolen_header_body_len says of a body,
 * bafirolen_reissued_header_body_len of a reissued one and bafirolen_frames_len of frames before they are written, and of all else
 * the writers' comments; a draft that a key is added to wants a buffer of its length, 6 bytes, and the key's parts. The two calls
 * and the listing have tables of their own; where these are too short, call bafirolen_read_header_body.
 *
 * Every other: neither more bytes nor more room change it. From a reader: reject the message (4, 15, 21 and 39 depend on what you
 * asked for). From a writer: correct the fields or frames, or with 31 the required table, and with 39 write the version that the
 * policy asks for; bafirolen_write_only_authenticated is a writer with 31 and 28, and a reader with all others.
 * BAFIROLEN_REFUSED_NOT_FOUND: the context is good and lacks this key.
 * BAFIROLEN_REFUSED_NO_KEY_REMAINS: the draft is good, and has no key but those that were to be dropped; it still has them. Add
 * the key of another station first, and then drop them. What else bafirolen_drafts.h refuses of a draft is as from a reader; with
 * 27, and with 16 where the draft itself can be read, correct the key that was to be added.
 * What bafirolen_reissue.h refuses of a draft is as from a reader, too; one that is refused by 4 is of version 2 already. With 24
 * and 25, and with 6 and 7 where the draft itself can be read, correct what was to be added.
 */
#ifndef BAFIROLEN_REFUSALS_H
#define BAFIROLEN_REFUSALS_H

#include <stddef.h>
#include <stdint.h>

enum BafirolenRefusal {
    BAFIROLEN_ACCEPTED = 0, /* no refusal */
    BAFIROLEN_REFUSED_NOT_ADDRESSABLE = 1,
    BAFIROLEN_REFUSED_SHORTAGE = 2, /* the message would have to reach `position` */
    BAFIROLEN_REFUSED_UNKNOWN_VERSION = 3,
    BAFIROLEN_REFUSED_OTHER_VERSION = 4,
    BAFIROLEN_REFUSED_MESSAGE_TYPE = 5,
    BAFIROLEN_REFUSED_UNKNOWN_SUITE = 6,
    BAFIROLEN_REFUSED_SUITE_OF_OTHER_VERSION = 7,
    BAFIROLEN_REFUSED_COUNT_IN_EMPTY_CONTEXT = 8,
    BAFIROLEN_REFUSED_NO_COUNT_IN_CONTEXT = 9,
    BAFIROLEN_REFUSED_KEY_NOT_UTF8 = 10, /* a key of the context, as in 12 and 29 */
    BAFIROLEN_REFUSED_VALUE_NOT_UTF8 = 11,
    BAFIROLEN_REFUSED_KEY_SEEN_BEFORE = 12,
    BAFIROLEN_REFUSED_PAIRS_TOO_LONG = 13, /* in writing alone */
    BAFIROLEN_REFUSED_CONTEXT_LENGTH = 14,
    BAFIROLEN_REFUSED_TOO_MANY_KEYS = 15, /* encrypted data keys, as in 16, 23, 38 and 40 */
    BAFIROLEN_REFUSED_PROVIDER_ID_NOT_UTF8 = 16,
    BAFIROLEN_REFUSED_CONTENT_TYPE = 17,
    BAFIROLEN_REFUSED_RESERVED_BYTES = 18,
    BAFIROLEN_REFUSED_IV_LENGTH = 19, /* of a header, of an authentication record, or in writing of a frame */
    BAFIROLEN_REFUSED_FRAME_LENGTH = 20,      /* framed content or frames with 0, or non-framed content with another */
    BAFIROLEN_REFUSED_OLD_EMPTY_CONTEXT = 21, /* strict: 00 02 00 00 */
    BAFIROLEN_REFUSED_PAIR_TABLE_TOO_SHORT = 22,
    BAFIROLEN_REFUSED_KEY_TABLE_TOO_SHORT = 23, /* or the table of frames */
    BAFIROLEN_REFUSED_ID_LENGTH = 24,         /* 16 bytes in version 1, 32 in version 2 */
    BAFIROLEN_REFUSED_SUITE_DATA_LENGTH = 25, /* 0 bytes in version 1, 32 in version 2 */
    BAFIROLEN_REFUSED_TABLE_OR_PLACE = 26,
    BAFIROLEN_REFUSED_COUNT_OR_PART_TOO_LONG = 27, /* of frames the count alone */
    BAFIROLEN_REFUSED_OUTPUT_TOO_SHORT = 28, /* or the buffer of a draft that a key is added to */
    BAFIROLEN_REFUSED_NOT_FOUND = 29,
    BAFIROLEN_REFUSED_TAG_LENGTH = 30, /* of an authentication record, or of a frame */
    BAFIROLEN_REFUSED_REQUIRED_TABLE_OR_PLACE = 31,
    BAFIROLEN_REFUSED_PAST_SECTION = 32, /* a count, or the length or the bytes of a key or value */
    BAFIROLEN_REFUSED_PAIR_IN_OLD_FORM = 33, /* in writing alone */
    BAFIROLEN_REFUSED_SEQUENCE_NUMBER = 34,  /* they run from 1 by one, the final frame's included */
    BAFIROLEN_REFUSED_FINAL_CONTENT_TOO_LONG = 35, /* in reading and in writing */
    BAFIROLEN_REFUSED_NO_FRAME = 36,               /* in writing alone, as 37 */
    BAFIROLEN_REFUSED_REGULAR_CONTENT_LENGTH = 37,
    BAFIROLEN_REFUSED_NO_ENCRYPTED_DATA_KEY = 38, /* in reading and in writing, as 39 */
    BAFIROLEN_REFUSED_FORBIDDEN_BY_POLICY = 39,   /* bafirolen_policy.h says which versions a policy forbids */
    BAFIROLEN_REFUSED_NO_KEY_REMAINS = 40         /* in dropping keys alone */
};

/* A refusal in words. Any other number has the words for unknown ones. */
static inline const char *bafirolen_refusal_text(uint64_t number)
{
    static const char *const texts[] = {
        "no refusal",
        "message length or start above 4,294,967,295",
        "shortage: the message does not reach the position given",
        "version not 01 or 02",
        "not the version asked for",
        "type not 80 (writing version 2: not 0)",
        "unknown suite",
        "suite of the other version",
        "context section of length 2 with a count that is not 0",
        "context section of another length above 0 with a count of 0",
        "key not UTF-8",
        "value not UTF-8",
        "key seen before",
        "the pairs take 65,534 bytes or more",
        "the pairs end before the section does",
        "key count above the maximum",
        "provider ID not UTF-8",
        "content type not 01 or 02",
        "reserved bytes not 0",
        "IV length not the suite's (writing a body of version 2: not 0; a frame: not 12)",
        "frame length against content type, or frames with length 0",
        "the old form of an empty context",
        "pair table too short",
        "key or frame table too short",
        "message ID of another length",
        "suite data of another length",
        "table not in fours or sixes, or a place outside the text",
        "more than 65,535 items, or a part of a pair or key above 65,535 bytes",
        "output too short",
        "no pair has the key",
        "tag not 16 bytes",
        "required table of odd length, or a place outside its text",
        "part of a context section that would end past the section",
        "a pair in a body marked as of the old form",
        "sequence number of a frame not the next one",
        "content of the final frame longer than the frame length",
        "no frame to write",
        "content of a frame before the last not of the frame length",
        "no encrypted data key",
        "suite forbidden by the policy",
        "no encrypted data key would remain",
    };
    return number < sizeof texts / sizeof *texts ? texts[number] : "unknown refusal";
}

#endif
