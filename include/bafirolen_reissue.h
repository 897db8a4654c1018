/*
 * Drafts of version 1 turned into version 2, for stations that want old drafts reissued under a suite that commits. bafirolen.h
 * includes this, and says how parts are lent, what is answered, and how many bytes of stack the name below stands for.
 *
 * WHAT IS READ. The draft is a header body of version 1 at `start`. It is read as bafirolen_read_header_body does with
 * BAFIROLEN_V1_ONLY, BAFIROLEN_TOLERANT and BAFIROLEN_NO_MAX, but without tables, so that none is too short: it may have up to
 * 65,535 keys. What stands behind it, such as an authentication record, is neither read nor copied; such a record is made for the
 * draft as it is, and the reissued body needs another. A body of version 2 is refused by 4 as soon as its first byte is read: the
 * other direction is refused because suite data would be lost.
 *
 * WHAT IS ADDED. `suite` is one of version 2, 0x0478 or 0x0578; message_id has BAFIROLEN_V2_MESSAGE_ID_LEN bytes and suite_data
 * BAFIROLEN_V2_SUITE_DATA_LEN. The draft's own suite and message ID are left out, as are its type and IV length, which version 2
 * does not store.
 *
 * WHAT IS WRITTEN. A header body of version 2 with these three, and with the draft's pairs and encrypted data keys in their order,
 * its content type and its frame length. An empty context is written 00 00, also where the draft has the old form, 00 02 00 00. The
 * body takes 42 bytes more than the draft, and where that has the old form 40. If it has at most 4,294,967,295 bytes, the tables
 * hold its entries and no maximum is set, then reading it tolerantly gives those fields.
 *
 * No policy is asked: bafirolen_policy.h says which of them reads no version 1, and which writes no version 2.
 */
#ifndef BAFIROLEN_REISSUE_H
#define BAFIROLEN_REISSUE_H

#include <stddef.h>
#include <stdint.h>

#include "bafirolen_records.h"

#ifdef __cplusplus
extern "C" {
#endif

/*
 * Writes the reissued body to `out`, from its first byte on, once nothing is left to refuse; the bytes after it are left as they
 * were.
 * Refuses: 1 2 3 4 5 6 7 32 8 9 10 11 12 14 38 16 17 18 19 20 6 7 24 25 28.
 * 20 where the draft's content type and frame length don't go together, which a reader of one version does not test; 6 and 7 first
 * of the draft's suite, and then of the one handed in, of which all 32 bits are tested; 24 and 25 of what is handed in.
 * Stack: BAFIROLEN_STACK_READ.
 */
BafirolenWritten bafirolen_reissue_header_body(const uint8_t *message, size_t message_len, uint64_t start, uint32_t suite,
                                               const uint8_t *message_id, size_t message_id_len, const uint8_t *suite_data,
                                               size_t suite_data_len, uint8_t *out, size_t out_len);

/*
 * Says how long an output bafirolen_reissue_header_body needs, before one is lent: it takes what that takes but for the output, and
 * answers the first refusal other than 28, with its position, or the length of the reissued body. Changes nothing.
 * Refuses: 1 2 3 4 5 6 7 32 8 9 10 11 12 14 38 16 17 18 19 20 6 7 24 25.
 * 20, 6, 7, 24 and 25 as for bafirolen_reissue_header_body.
 * Stack: BAFIROLEN_STACK_READ.
 */
BafirolenWritten bafirolen_reissued_header_body_len(const uint8_t *message, size_t message_len, uint64_t start, uint32_t suite,
                                                    const uint8_t *message_id, size_t message_id_len, const uint8_t *suite_data,
                                                    size_t suite_data_len);

#ifdef __cplusplus
}
#endif

#endif
