/*
 * Header bodies read, written and measured under a commitment policy. bafirolen.h includes this, and says how parts are lent, what
 * is answered, and how many bytes of stack the names below stand for.
 *
 * WHAT A POLICY IS. The suites of version 2 commit a message to its data key, so that no other key decrypts it; those of version 1
 * do not. A commitment policy of the AWS Encryption SDK says which of them a station encrypts with, and which it decrypts. Nothing
 * is encrypted or decrypted here: a policy says which versions of a header body are written, and which are read.
 *
 *                                                 reads versions   writes versions
 *   0  BAFIROLEN_NO_POLICY                        1 and 2          1 and 2
 *   1  BAFIROLEN_FORBID_ENCRYPT_ALLOW_DECRYPT     1 and 2          1                 stations of agreement 3
 *   2  BAFIROLEN_REQUIRE_ENCRYPT_ALLOW_DECRYPT    1 and 2          2                 stations of agreement 4: this,
 *   3  BAFIROLEN_REQUIRE_ENCRYPT_REQUIRE_DECRYPT  2                2                 or this
 *
 * With BAFIROLEN_NO_POLICY the three functions answer what bafirolen_read_header_body, bafirolen_write_header_body and
 * bafirolen_header_body_len answer. No number is refused: one that is not named here stands for
 * BAFIROLEN_REQUIRE_ENCRYPT_REQUIRE_DECRYPT, which reads least, so that a wrong number never reads more than the right one would.
 *
 * WHAT IT CHANGES. A version that the policy forbids is refused by 39, BAFIROLEN_REFUSED_FORBIDDEN_BY_POLICY, with position 0. That
 * is tested right after 7, once version and suite are known to be good. In reading this is before the message ID is read: a message
 * that breaks off right behind its suite is refused by 39, and not waited for (2). In writing it is before 24. In everything else
 * each function answers and leaves what it does without a policy: the same fields, places and tables, and the same bytes.
 *
 * No other function has a policy: the two calls, the listing, and those of sections, records and frames take both versions. A host
 * that is bound by one reads the body under it first, and goes on from what that accepts.
 */
#ifndef BAFIROLEN_POLICY_H
#define BAFIROLEN_POLICY_H

#include <stddef.h>
#include <stdint.h>

#include "bafirolen_records.h"

#ifdef __cplusplus
extern "C" {
#endif

/* As a number of the type uint32_t, as are `which`, `mode` and `has_max`: a compiler does not notice two that are swapped. */
enum BafirolenPolicy {
    BAFIROLEN_NO_POLICY = 0,
    BAFIROLEN_FORBID_ENCRYPT_ALLOW_DECRYPT = 1,
    BAFIROLEN_REQUIRE_ENCRYPT_ALLOW_DECRYPT = 2,
    BAFIROLEN_REQUIRE_ENCRYPT_REQUIRE_DECRYPT = 3
};

/*
 * Reads the header body at `start` under a policy; all else as for bafirolen_read_header_body.
 * Refuses: 1 2 3 4 5 6 7 39 32 8 21 9 10 11 12 14 38 15 16 17 18 19 20 22 23.
 * 39 only under BAFIROLEN_REQUIRE_ENCRYPT_REQUIRE_DECRYPT, and only of a message of version 1, so never where version 2 alone is
 * asked for; the others as for bafirolen_read_header_body.
 * Stack: BAFIROLEN_STACK_READ.
 */
BafirolenBody bafirolen_read_header_body_under_policy(const uint8_t *message, size_t message_len, uint64_t start, uint32_t which,
                                                      uint32_t mode, uint32_t has_max, uint64_t max, uint32_t policy,
                                                      uint32_t *pairs, size_t pairs_len, uint32_t *keys, size_t keys_len);

/*
 * Writes a header body under a policy; all else as for bafirolen_write_header_body.
 * Refuses: 3 5 6 7 39 24 26 27 10 11 12 13 33 38 16 17 19 25 20 28.
 * 39 where the policy does not write numbers.version; the others as for bafirolen_write_header_body.
 * Stack: BAFIROLEN_STACK_WRITE.
 */
BafirolenWritten bafirolen_write_header_body_under_policy(BafirolenNumbers numbers, uint32_t policy, const uint8_t *message_id,
                                                          size_t message_id_len, const uint8_t *suite_data,
                                                          size_t suite_data_len, const uint8_t *text, size_t text_len,
                                                          const uint32_t *pairs, size_t pairs_len, const uint32_t *keys,
                                                          size_t keys_len, uint8_t *out, size_t out_len);

/*
 * Says how long an output bafirolen_write_header_body_under_policy needs, or which refusal but 28 it would answer, under the same
 * policy; all else as for bafirolen_header_body_len. Changes nothing.
 * Refuses: 3 5 6 7 39 24 26 27 10 11 12 13 33 38 16 17 19 25 20.
 * 39 as for bafirolen_write_header_body_under_policy.
 * Stack: BAFIROLEN_STACK_WRITE.
 */
BafirolenWritten bafirolen_header_body_len_under_policy(BafirolenNumbers numbers, uint32_t policy, const uint8_t *message_id,
                                                        size_t message_id_len, const uint8_t *suite_data, size_t suite_data_len,
                                                        const uint8_t *text, size_t text_len, const uint32_t *pairs,
                                                        size_t pairs_len, const uint32_t *keys, size_t keys_len);

#ifdef __cplusplus
}
#endif

#endif
