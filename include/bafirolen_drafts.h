/*
 * Drafts mended before they are sealed, in the buffer in which they stand: the encrypted data keys of a departed station taken out,
 * and one key added. bafirolen.h includes this, and says how parts are lent, what is answered, and how many bytes of stack the
 * name below stands for.
 *
 * WHAT A DRAFT IS. A header body, of either version, whose first byte is the first byte of `draft`. The buffer may be longer than
 * the body: draft_len counts all of its bytes. What stands behind the body is not read, so that it may be anything. But only the
 * body's own lengths and counts say where it ends: one that breaks off is read on into whatever stands behind it in the buffer. So
 * lend room only behind a draft that is whole: one that a call accepts, or refuses by 28 or 40, if it is lent no byte behind it.
 *
 * WHAT BOTH DO. They first read the draft as bafirolen_read_header_body does with start 0, BAFIROLEN_EITHER, BAFIROLEN_TOLERANT and
 * BAFIROLEN_NO_MAX, but want no tables, so that no table is too short: a draft may have up to 65,535 keys. What that refuses, they
 * refuse. 1 is answered where draft_len is above 4,294,967,295, and 2 where the buffer ends before the body does; `position` is
 * then how many bytes the buffer would have to have.
 * Accepted, `length` is the tail of the draft as it is now: it takes the bytes from the first on, so many. It reads as the same
 * fields, but for the keys taken out or the key added. The other keys keep their order, and an empty context in its old form,
 * 00 02 00 00, stays as it is. A refusal changes no byte.
 *
 * WHAT THEY MAY NOT SHARE. `draft` may change, so that it shares no byte with the other parts that the call is lent: a provider ID
 * that was found in the draft is copied before it is handed in.
 *
 * An authentication record behind a body is made for that body as it is: one that was mended needs another. The bytes of the old
 * record stay where they were when keys are dropped; when one is added, the draft moves over them.
 */
#ifndef BAFIROLEN_DRAFTS_H
#define BAFIROLEN_DRAFTS_H

#include <stddef.h>
#include <stdint.h>

#include "bafirolen_records.h"

#ifdef __cplusplus
extern "C" {
#endif

/*
 * Drops from the draft all encrypted data keys with a provider ID. It may be any bytes, and is compared whole: one that only begins
 * another is not that one, and one that is not UTF-8 is no key's.
 * draft: what stays closes up in its order, the count falls, and the bytes that are freed, from the new tail up to the old one, are
 * 00. The bytes behind the old tail are left as they were. Where no key has that ID nothing changes, and `length` is the tail.
 * The keys of two IDs may be dropped in either order. If a key remains after both, every byte of the buffer is then the same, and
 * so is the second `length`: the draft with neither, 00 up to where the first one ended, and what was behind that. The two may be
 * the same, begin one another, or be no key's. If none would remain, a call is refused by 40 in either order, and by no other
 * number. Where every key has one of the two, it is the call that was to drop that one, first or second, or both calls where the
 * two are the same, and the buffer stays as it was. Where some keys have the one and all others the other, it is the second call,
 * and the keys that it was to drop are left.
 * Refuses: 1 2 3 5 6 7 32 8 9 10 11 12 14 38 16 17 18 19 20 40.
 * 5, 18 and 19 only of a draft of version 1; 40 where every key has that ID.
 * Stack: BAFIROLEN_STACK_READ.
 */
BafirolenWritten bafirolen_drop_encrypted_data_keys(uint8_t *draft, size_t draft_len, const uint8_t *provider_id,
                                                    size_t provider_id_len);

/*
 * Adds to the draft one encrypted data key, behind the others. Each of its parts may be empty, and another key may have the same
 * provider ID already.
 * draft: the count rises by one, and what stands behind the keys moves up by what the key takes, 6 bytes and its parts, over the
 * bytes behind the tail. The bytes behind the new tail are left as they were.
 * Refuses: 1 2 3 5 6 7 32 8 9 10 11 12 14 38 16 17 18 19 20 16 27 28.
 * 5, 18 and 19 only of a draft of version 1; 16 first of the draft's keys, and then of the provider ID handed in, however long it
 * is; 27 where one of the three parts is above 65,535 bytes, or the draft has 65,535 keys already; 28 where the longer draft takes
 * more than draft_len bytes.
 * Stack: BAFIROLEN_STACK_READ.
 */
BafirolenWritten bafirolen_add_encrypted_data_key(uint8_t *draft, size_t draft_len, const uint8_t *provider_id,
                                                  size_t provider_id_len, const uint8_t *provider_info, size_t provider_info_len,
                                                  const uint8_t *ciphertext, size_t ciphertext_len);

#ifdef __cplusplus
}
#endif

#endif
