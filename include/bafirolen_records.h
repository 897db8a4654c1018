/* What the functions of bafirolen.h are asked, take and answer. bafirolen.h includes this, and says how to read it. */
#ifndef BAFIROLEN_RECORDS_H
#define BAFIROLEN_RECORDS_H

#include <stddef.h>
#include <stdint.h>

/* TABLES. How many numbers stand for a pair, for a key and for a frame, and how many hold whatever a header can have. */
#define BAFIROLEN_NUMBERS_PER_PAIR 4  /* key start, key length, value start, value length */
#define BAFIROLEN_NUMBERS_PER_KEY 6   /* start and length of provider ID, of provider info and of ciphertext */
#define BAFIROLEN_NUMBERS_PER_FRAME 6 /* start and length of IV, of content and of tag */
#define BAFIROLEN_LARGEST_PAIR_TABLE (BAFIROLEN_NUMBERS_PER_PAIR * 16383) /* pairs of 4 bytes or more in fewer than 65,534 */
#define BAFIROLEN_LARGEST_KEY_TABLE (BAFIROLEN_NUMBERS_PER_KEY * 65535)   /* a count of 16 bits; the table takes 1.5 MiB */

/*
 * How many numbers hold whatever frames can stand in so many bytes: those of the message from their start on, or all of them. A
 * regular frame takes 32 bytes and its content, the final one at least 40. No two arguments overflow it.
 */
static inline uint64_t bafirolen_frame_table_len(uint64_t bytes, uint32_t frame_length)
{
    return BAFIROLEN_NUMBERS_PER_FRAME * (1 + bytes / (32 + (uint64_t)frame_length));
}

/* Numbers and lengths of the format. */
#define BAFIROLEN_V1_MESSAGE_TYPE 0x80 /* version 2 stores none: messageType is 0 */
#define BAFIROLEN_NON_FRAMED 1      /* content types */
#define BAFIROLEN_FRAMED 2
#define BAFIROLEN_IV_LEN 12
#define BAFIROLEN_TAG_LEN 16
#define BAFIROLEN_V1_MESSAGE_ID_LEN 16
#define BAFIROLEN_V2_MESSAGE_ID_LEN 32
#define BAFIROLEN_V2_SUITE_DATA_LEN 32 /* version 1 has no suite data */

/*
 * What readers are asked, as numbers. No number is refused: one that is not named here is read as BAFIROLEN_EITHER,
 * BAFIROLEN_STRICT or BAFIROLEN_AT_MOST, by where it stands. All three have the type uint32_t, so that a compiler does not notice
 * two that are swapped: BAFIROLEN_STRICT in the place of `which` asks for version 1.
 */
enum BafirolenWhich { BAFIROLEN_EITHER = 0, BAFIROLEN_V1_ONLY = 1, BAFIROLEN_V2_ONLY = 2 };
enum BafirolenMode { BAFIROLEN_TOLERANT = 0, BAFIROLEN_STRICT = 1 };
enum BafirolenMax { BAFIROLEN_NO_MAX = 0, BAFIROLEN_AT_MOST = 1 };

/*
 * The form of a header body, as a number: today an empty context is stored as 00 00, and in the old form it is 00 02 00 00. A body
 * with a pair has one form, which is today's. A reader gives one of these two; a writer reads a number that is not named here as
 * BAFIROLEN_OLD.
 */
enum BafirolenForm { BAFIROLEN_TODAY = 0, BAFIROLEN_OLD = 1 };

/* A section that was read, or frames. 32 bytes. */
typedef struct BafirolenSection {
    uint64_t number;
    uint64_t position;
    uint64_t count; /* how many pairs, keys or frames */
    uint64_t tail;
} BafirolenSection;

/* A value that was found. 32 bytes. */
typedef struct BafirolenPlace {
    uint64_t number;
    uint64_t position;
    uint64_t start; /* the place of its first byte in the message; an empty value has one too */
    uint64_t len;
} BafirolenPlace;

/* An authentication record that was read. 56 bytes, of which the last four are none of its fields: compare it field by field. */
typedef struct BafirolenAuth {
    uint64_t number;
    uint64_t position;
    uint64_t tail;
    uint8_t iv[BAFIROLEN_IV_LEN]; /* all 0 in version 2, which stores none */
    uint8_t tag[BAFIROLEN_TAG_LEN];
} BafirolenAuth;

/*
 * The numbers among a header body's fields: what the body reader gives and the body writer takes. Each has 32 bits, also where it
 * is stored in 8 or 16, so that the writer tests the number that it is handed: 257 is no version. 28 bytes.
 */
typedef struct BafirolenNumbers {
    uint32_t version;     /* 1 or 2 */
    uint32_t messageType; /* BAFIROLEN_V1_MESSAGE_TYPE in version 1, 0 in version 2 */
    /* version 1: 0x0014 0x0046 0x0078 0x0114 0x0146 0x0178 0x0214 0x0346 0x0378; version 2: 0x0478 0x0578 */
    uint32_t suite;
    uint32_t contentType;    /* BAFIROLEN_NON_FRAMED or BAFIROLEN_FRAMED */
    uint32_t headerIvLength; /* 12 in version 1, 0 in version 2 */
    /* 0 where the content is non-framed, else above 0; a reader that is asked for one version does not test this */
    uint32_t frameLength;
    uint32_t form; /* BAFIROLEN_TODAY or BAFIROLEN_OLD */
} BafirolenNumbers;

/*
 * The numbers of a header of version 1, and of version 2, in today's form. For the old one set `form` of what is returned to
 * BAFIROLEN_OLD.
 */
static inline BafirolenNumbers bafirolen_v1_numbers(uint32_t suite, uint32_t contentType, uint32_t frameLength)
{
    const BafirolenNumbers numbers = {1, BAFIROLEN_V1_MESSAGE_TYPE, suite, contentType, BAFIROLEN_IV_LEN, frameLength,
                                      BAFIROLEN_TODAY};
    return numbers;
}

static inline BafirolenNumbers bafirolen_v2_numbers(uint32_t suite, uint32_t contentType, uint32_t frameLength)
{
    const BafirolenNumbers numbers = {2, 0, suite, contentType, 0, frameLength, BAFIROLEN_TODAY};
    return numbers;
}

/*
 * A header body that was read. 104 bytes, of which the four right after `numbers` are none of its fields: compare it field by
 * field. suiteDataStart and suiteDataLen are 0 in version 1, which has no suite data.
 */
typedef struct BafirolenBody {
    uint64_t number;
    uint64_t position;
    BafirolenNumbers numbers;
    uint64_t messageIdStart; /* the place of the message ID's first byte */
    uint64_t messageIdLen;
    uint64_t pairCount; /* how many pairs of the encryption context */
    uint64_t keyCount;  /* how many encrypted data keys; where the body is accepted, at least 1 */
    uint64_t suiteDataStart; /* the place of the suite data's first byte */
    uint64_t suiteDataLen;
    uint64_t tail; /* the authentication record begins here */
} BafirolenBody;

/*
 * Where the context section of a body that was accepted begins, the start that bafirolen_find_value wants: right after the
 * message ID. That is 20 bytes after the body's start in version 1, and 35 in version 2. Of a refused body it is 0.
 */
static inline uint64_t bafirolen_context_start(BafirolenBody body)
{
    return body.messageIdStart + body.messageIdLen;
}

/* What was written or copied; of the functions that say a length before, what would be written; or a mended draft. 24 bytes. */
typedef struct BafirolenWritten {
    uint64_t number;
    uint64_t position;
    uint64_t length; /* how many bytes, from the first byte of the output or of the draft on */
} BafirolenWritten;

#endif
