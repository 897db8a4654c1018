/*
 * Message headers of the AWS Encryption SDK: reads, writes, mends, reissues and lists header bodies, reads and writes their two
 * sections and authentication records, and the frames behind them. For hosts in C99 and C++11 and later. Nothing is verified,
 * signed, encrypted or decrypted: that a header or a frame is accepted says how it is built, and not whose it is.
 *
 * Link libbafirolen_c.a: code for x86-64 and the System V calling convention (Linux). It calls memcpy and memset, and nothing
 * else. In the repository `tools/archives` writes it into target/staticlib, and hosts/c has examples.
 *
 * THE SHORTEST USE. bafirolen_header_number says of the bytes at a start whether a header is there (0) or why not, and
 * bafirolen_header_position where it ends, or how many bytes are wanted. A host that wants the fields calls
 * bafirolen_read_header_body; one that has a commitment policy, a function of bafirolen_policy.h in its place. bafirolen_fetch.h
 * has the loop for a header that comes in pieces, as from a pipe. bafirolen_drafts.h takes encrypted data keys out of a body in the
 * buffer in which it stands, and adds one; bafirolen_reissue.h turns a body of version 1 into one of version 2.
 *
 * LENDING. A pointer and a length together are one lent part: `const uint8_t *message, size_t message_len`. The length counts
 * elements: bytes of a message, numbers of a table (`sizeof table` counts bytes: lend sizeof table / sizeof *table). A part of
 * length 0 takes any pointer, NULL included. Any other pointer leads to at least that many elements and has its type's
 * alignment. What a function may change (`out`, `table`, `draft`, and `pairs` and `keys` without `const`) shares no byte with
 * anything else that the same call is lent; what it only reads may overlap. Nothing is kept after a call, nothing is allocated, and
 * calls share no state: several threads may call at once.
 *
 * PLACES are offsets in bytes from the first byte of the message, whatever the start, or of the text that a writer is lent.
 * `tail` is the place right after what was read.
 *
 * ANSWERS. bafirolen_version, bafirolen_header_number and bafirolen_header_position answer one number; every other function
 * answers a struct by value. The struct's `number` is 0 where the input was accepted, and then its `position` is 0. Otherwise it
 * is the refusal, one of `enum BafirolenRefusal`, and every other field is 0, except that with BAFIROLEN_REFUSED_SHORTAGE
 * `position` is how many bytes the message would have to have. On a refusal every lent byte and number is as it was. Every
 * input is allowed: each call on parts lent as above returns, with exactly one answer. bafirolen_refusals.h has the refusals in
 * words, and WHAT TO DO with each.
 *
 * The comment of each function lists the refusals that it can answer ("Refuses"), in the order of its tests: of two that apply
 * the first is answered. 10, 11, 12 and, in reading, 32 are tested of one pair after the other, 16 of one key after the other,
 * and of one frame after the other 34 and 35 in reading, 19 and 30 in writing, so that the first pair, key or frame with a fault
 * decides. 2 is answered where the next field is not all there. Fields are read one by one, but the context section is awaited
 * whole, once its length is read, before any of its pairs is tested. In it the count, and the length and bytes of each key and
 * value, are refused by 32 where they would end past the section, before they are read.
 *
 * Names are those of the AWS Encryption SDK's message format: a header has an encryption context (pairs of key and value) and
 * encrypted data keys (key provider ID, key provider info, ciphertext); "key" alone is either, by where it stands. Pairs and keys
 * keep their order: no order is tested, and nothing is sorted, but for what bafirolen_write_only_authenticated writes. A header
 * may have no pair, and has at least one encrypted data key: one that has none is neither read nor written, but refused by 38.
 */
#ifndef BAFIROLEN_H
#define BAFIROLEN_H

#include <stddef.h>
#include <stdint.h>

#include "bafirolen_drafts.h"
#include "bafirolen_fetch.h"
#include "bafirolen_policy.h"
#include "bafirolen_records.h"
#include "bafirolen_refusals.h"
#include "bafirolen_reissue.h"

#ifdef __cplusplus
extern "C" {
#endif

/*
 * The version of these declarations, which grows by one with each change of them. bafirolen_version gives that of the archive:
 * where the two differ, the archive was made for another header file than this. A host of version 9 knows no refusal 40.
 */
#define BAFIROLEN_VERSION 11
uint32_t bafirolen_version(void);

/*
 * STACK. How many bytes of stack a call may take, measured on the archive and rounded up; a test runs every function on a thread
 * that has just so many left. Nothing proves them. Where the program binds memcpy and memset at their first call, that call
 * also takes what the dynamic linker takes, for which these figures leave some room. bafirolen_version takes less than
 * BAFIROLEN_STACK_KEYS.
 */
#define BAFIROLEN_STACK_READ 40960               /* read a context section or a body; find, copy a value; mend, reissue a draft */
#define BAFIROLEN_STACK_KEYS 1024                /* key sections, authentication records and frames, and the length of frames */
#define BAFIROLEN_STACK_ONLY_AUTHENTICATED 57344 /* write the pairs of required keys, whose order lies on the stack */
#define BAFIROLEN_STACK_LISTED 73728             /* the number, the position, the listing: their tables lie on the stack */
#define BAFIROLEN_STACK_WRITE 143360             /* write a context section or a body; the length of a body */

/*
 * THE TWO CALLS. The header body at `start` in one number: 0 where it is accepted, else the refusal; and its position: the tail
 * where it is accepted, else 0 but for BAFIROLEN_REFUSED_SHORTAGE. It is read in either version, tolerantly, with no maximum and
 * with tables of 4,096 numbers, so at most 1,024 pairs and 682 keys.
 * Refuses: 1 2 3 5 6 7 32 8 9 10 11 12 14 38 16 17 18 19 20 22 23.
 * Stack: BAFIROLEN_STACK_LISTED.
 */
uint32_t bafirolen_header_number(const uint8_t *message, size_t message_len, uint64_t start);
uint64_t bafirolen_header_position(const uint8_t *message, size_t message_len, uint64_t start);

/*
 * READING. A reader changes its tables, and nothing else, and those only where it accepts. A table need not be a multiple of four
 * or six.
 */

/*
 * Reads the header body at `start`. Under a commitment policy: bafirolen_read_header_body_under_policy.
 * which: BAFIROLEN_V1_ONLY; BAFIROLEN_V2_ONLY; any other number: BAFIROLEN_EITHER. Asking for one version leaves out the test of
 * the frame length (20): to have that test as well, ask for either version and then compare numbers.version.
 * mode: BAFIROLEN_TOLERANT; any other number: strict, which refuses an empty context in its old form, 00 02 00 00 for 00 00.
 * has_max: BAFIROLEN_NO_MAX, and `max` is not looked at; any other number: at most `max` keys; at most 0 takes no body.
 * pairs, keys: accepted, they begin with four numbers for each pair and six for each key, in the order of the section. The numbers
 * after those are left as they were.
 * numbers.form says in which form an empty context was read, whichever version and mode were asked for; a strict reader never gives
 * BAFIROLEN_OLD.
 * Refuses: 1 2 3 4 5 6 7 32 8 21 9 10 11 12 14 38 15 16 17 18 19 20 22 23.
 * 4 only where one version is asked for; 5, 18 and 19 only of a message of version 1; 20 only where either version is asked for;
 * 21 only where strict; 38 as soon as the count of keys is read.
 * Stack: BAFIROLEN_STACK_READ.
 */
BafirolenBody bafirolen_read_header_body(const uint8_t *message, size_t message_len, uint64_t start, uint32_t which, uint32_t mode,
                                         uint32_t has_max, uint64_t max, uint32_t *pairs, size_t pairs_len, uint32_t *keys,
                                         size_t keys_len);

/*
 * Reads the context section at `start`; mode and table as `mode` and `pairs` of bafirolen_read_header_body.
 * Refuses: 1 2 32 8 21 9 10 11 12 14 22.
 * 21 only where strict.
 * Stack: BAFIROLEN_STACK_READ.
 */
BafirolenSection bafirolen_read_aad_section(const uint8_t *message, size_t message_len, uint64_t start, uint32_t mode,
                                            uint32_t *table, size_t table_len);

/*
 * Reads the section of encrypted data keys at `start`; has_max, max and table as for bafirolen_read_header_body (`keys`).
 * Refuses: 1 2 38 15 16 23.
 * Stack: BAFIROLEN_STACK_KEYS.
 */
BafirolenSection bafirolen_read_encrypted_data_keys_section(const uint8_t *message, size_t message_len, uint64_t start,
                                                            uint32_t has_max, uint64_t max, uint32_t *table, size_t table_len);

/*
 * Finds the value of a key of the context in the context section at `start`, read tolerantly. For a body that was accepted
 * bafirolen_context_start gives that start. The key may be any bytes: one that is not UTF-8 is not found. Changes nothing.
 * Refuses: 1 2 32 8 9 10 11 12 14 29.
 * Stack: BAFIROLEN_STACK_READ.
 */
BafirolenPlace bafirolen_find_value(const uint8_t *message, size_t message_len, uint64_t start, const uint8_t *key,
                                    size_t key_len);

/*
 * Copies the value that bafirolen_find_value finds to `out`, from its first byte on; the bytes after it are left as they were.
 * Refuses: 1 2 32 8 9 10 11 12 14 29 28.
 * Stack: BAFIROLEN_STACK_READ.
 */
BafirolenWritten bafirolen_copy_value(const uint8_t *message, size_t message_len, uint64_t start, const uint8_t *key,
                                      size_t key_len, uint8_t *out, size_t out_len);

/*
 * Reads the authentication record of a suite at `start`: the IV and the tag that stand right after a header body (its tail and
 * numbers.suite). Neither is verified. Changes nothing.
 * Refuses: 1 6 2.
 * Stack: BAFIROLEN_STACK_KEYS.
 */
BafirolenAuth bafirolen_read_header_auth_tag(const uint8_t *message, size_t message_len, uint64_t start, uint32_t suite);

/*
 * Reads the frames at `start`, the final one included: where the content is framed (numbers.contentType), they stand right after
 * the authentication record (its tail), and numbers.frameLength is their length. No content is decrypted, and no tag is verified.
 * A regular frame has a sequence number of 4 bytes, an IV of 12, content of exactly frame_length bytes and a tag of 16. The final
 * frame has FF FF FF FF, its sequence number, an IV, a length of 4 bytes, content of that length and a tag; its content may be
 * empty, and has at most frame_length bytes. The numbers run from 1 by one, the final frame's included.
 * table: accepted, it begins with six numbers for each frame, in their order; `count` says how many frames there are. The numbers
 * after those are left as they were.
 * Refuses: 1 20 2 34 35 23.
 * 20 where frame_length is 0; 34 as soon as a sequence number is read, and 35 as soon as the length of the final content is.
 * Stack: BAFIROLEN_STACK_KEYS.
 */
BafirolenSection bafirolen_read_frames(const uint8_t *message, size_t message_len, uint64_t start, uint32_t frame_length,
                                       uint32_t *table, size_t table_len);

/*
 * WRITING. A writer changes `out`, and nothing else, and that only where it accepts: the bytes from the first on, `length` of
 * them; the bytes after those are left as they were. A table holds places of `text`, in the order that readers fill: what a reader
 * filled can be handed to a writer, its message as the text. The numbers of a table are all taken: lend just four a pair, or six a
 * key or frame. Zeros at the end of a longer table are places of length 0: empty pairs or keys, and 19 of frames.
 * A body that the reader of either version accepted is so written again, with the numbers that it gave, to exactly the bytes from
 * its start to its tail: the writer follows the form. Up to 65,535 frames likewise, with the length that they were read by. (A
 * reader that is asked for one version may give a frame length that the writer of bodies refuses by 20.) A section alone has no
 * form to follow: an empty context is then written 00 00, however it was read.
 */

/*
 * Writes the context section of the pairs in the table: 00 00 where there is none, else 4 bytes, 4 for each pair and its parts.
 * If two lists of pairs, joined, are accepted, so is each of them, and what the joined section has behind its first 4 bytes is what
 * the first one's has there and then what the second one's has; an empty one's has nothing there. A list that is accepted is
 * accepted in any other order, and its section is then as long and begins with the same 4 bytes.
 * Refuses: 26 27 10 11 12 13 28.
 * Stack: BAFIROLEN_STACK_WRITE.
 */
BafirolenWritten bafirolen_write_aad_section(const uint8_t *text, size_t text_len, const uint32_t *pairs, size_t pairs_len,
                                             uint8_t *out, size_t out_len);

/*
 * Writes the section of the encrypted data keys in the table: 2 bytes, 6 for each key and its parts.
 * Refuses: 26 27 38 16 28.
 * 38 where the table is empty.
 * Stack: BAFIROLEN_STACK_KEYS.
 */
BafirolenWritten bafirolen_write_encrypted_data_keys_section(const uint8_t *text, size_t text_len, const uint32_t *keys,
                                                             size_t keys_len, uint8_t *out, size_t out_len);

/*
 * Writes the authentication record of a suite: IV and tag, 28 bytes, in version 1; the tag, 16 bytes, in version 2. iv_len is 12
 * in both; version 2 ignores the IV's bytes.
 * Refuses: 6 19 30 28.
 * Stack: BAFIROLEN_STACK_KEYS.
 */
BafirolenWritten bafirolen_write_header_auth_tag(uint32_t suite, const uint8_t *iv, size_t iv_len, const uint8_t *tag,
                                                 size_t tag_len, uint8_t *out, size_t out_len);

/*
 * Writes a header body. Pairs and keys have their places in one text; message ID and suite data are bytes of their own. A body
 * takes 34 bytes in version 1 and 76 in version 2; where it has a pair or is marked old, 2 more; 4 for each pair, 6 for each key,
 * and their parts: bafirolen_header_body_len adds them up. With its pairs in another order a body that is accepted is accepted, as
 * long, and the same but for the bytes of those pairs. Under a commitment policy: bafirolen_write_header_body_under_policy.
 * numbers.form: BAFIROLEN_TODAY, and an empty context is written 00 00; any other number: old, and it is written 00 02 00 00.
 * Refuses: 3 5 6 7 24 26 27 10 11 12 13 33 38 16 17 19 25 20 28.
 * 26 and 27 are tested of the pairs before 10, of the keys after 33 and before 38; 33 only where the form is old, 38 without a key.
 * Stack: BAFIROLEN_STACK_WRITE.
 */
BafirolenWritten bafirolen_write_header_body(BafirolenNumbers numbers, const uint8_t *message_id, size_t message_id_len,
                                             const uint8_t *suite_data, size_t suite_data_len, const uint8_t *text,
                                             size_t text_len, const uint32_t *pairs, size_t pairs_len, const uint32_t *keys,
                                             size_t keys_len, uint8_t *out, size_t out_len);

/*
 * Says how long an output bafirolen_write_header_body needs, before one is lent: it takes what the writer takes but for the output,
 * and `length` is how many bytes the writer would write, in the form that numbers.form says. It answers the first refusal other
 * than 28 that the writer would, and whatever output the writer is then lent, it answers the same. Where there is none, the writer
 * answers 28 exactly where the output is shorter than `length`, and otherwise accepts and gives that length. Keys may share their
 * places, so that the length may be far above that of the text: up to 12.9 GB. Changes nothing.
 * Under a commitment policy: bafirolen_header_body_len_under_policy.
 * Refuses: 3 5 6 7 24 26 27 10 11 12 13 33 38 16 17 19 25 20.
 * 26, 27, 33 and 38 as for bafirolen_write_header_body.
 * Stack: BAFIROLEN_STACK_WRITE.
 */
BafirolenWritten bafirolen_header_body_len(BafirolenNumbers numbers, const uint8_t *message_id, size_t message_id_len,
                                           const uint8_t *suite_data, size_t suite_data_len, const uint8_t *text,
                                           size_t text_len, const uint32_t *pairs, size_t pairs_len, const uint32_t *keys,
                                           size_t keys_len);

/*
 * Writes frames, which stand behind an authentication record: six numbers a frame, of which the last becomes the final one. They
 * are numbered from 1. Before the last each takes 32 bytes and content of frame_length bytes, the last 40 and content of at most so
 * many. With the same frame length bafirolen_read_frames gives the same parts again, if all take at most 4,294,967,295 bytes.
 * Refuses: 20 26 36 27 19 30 37 35 28.
 * 20 where frame_length is 0; 36 where the table is empty; 27 for the count alone; 19 and 30 of all frames before 37, where a
 * content before the last has not frame_length bytes, and 35, where the last has more.
 * Stack: BAFIROLEN_STACK_KEYS.
 */
BafirolenWritten bafirolen_write_frames(uint32_t frame_length, const uint8_t *text, size_t text_len, const uint32_t *frames,
                                        size_t frames_len, uint8_t *out, size_t out_len);

/*
 * Says how long an output bafirolen_write_frames needs, as bafirolen_header_body_len does for a body. Frames may share their places
 * too: up to 281 TB. Changes nothing.
 * Refuses: 20 26 36 27 19 30 37 35.
 * Stack: BAFIROLEN_STACK_KEYS.
 */
BafirolenWritten bafirolen_frames_len(uint32_t frame_length, const uint8_t *text, size_t text_len, const uint32_t *frames,
                                      size_t frames_len);

/*
 * Writes what a station authenticates without storing it: of the context section at `start`, read tolerantly, the pairs with the
 * required keys, sorted by the bytes of their keys, ascending; a key that begins another comes first. Where no pair has such a key
 * nothing is written, and the length is 0. Otherwise the count of those pairs is written, in 2 bytes, then each pair as its
 * section has it; no length stands in front. For a body that was accepted bafirolen_context_start gives the start.
 * required: start and length of each key, places of `text`. The keys may be any bytes and stand in any order; one that no pair
 * has, or that is named twice, changes nothing. All numbers are taken: zeros at the end of a longer table are the empty key.
 * For the same keys the same bytes are written, in whatever order the section has its pairs.
 * out: what is written takes 2 bytes, 4 for each pair, and its parts. It is never longer than the whole section, nor than 65,535
 * bytes: an output of either length is never too short.
 * Refuses: 1 2 32 8 9 10 11 12 14 31 28.
 * Stack: BAFIROLEN_STACK_ONLY_AUTHENTICATED.
 */
BafirolenWritten bafirolen_write_only_authenticated(const uint8_t *message, size_t message_len, uint64_t start,
                                                    const uint8_t *text, size_t text_len, const uint32_t *required,
                                                    size_t required_len, uint8_t *out, size_t out_len);

/*
 * LISTING. Writes, as a writer does, the header at the first byte of the message as text; the listing program of the repository
 * prints the same. Each line ends with a line feed, and one tab stands between its parts: `header`, version, type, suite, content
 * type, frame length and tail; `id` and the message ID; for each pair `pair`, key and value; for each key `key`, provider ID,
 * provider info and ciphertext; in version 2 `data` and the suite data. Type and content type have two hexadecimal digits, the
 * suite four, each byte two, lower-case and without 0x; the type of version 2 is 00, and an empty part leaves nothing between its
 * tabs; all other numbers are decimal. The message is read as by the two calls; one that is refused has the one line `refused`,
 * number and position, and is no refusal here. An output of 2 * message_len + 28 bytes is never too short.
 * Refuses: 28.
 * Stack: BAFIROLEN_STACK_LISTED.
 */
BafirolenWritten bafirolen_write_listing(const uint8_t *message, size_t message_len, uint8_t *out, size_t out_len);

#ifdef __cplusplus
}
#endif

#endif
