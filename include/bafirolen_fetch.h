/*
 * A message that is fetched in pieces: how far an answer to its first bytes may be trusted, and the loop that fetches just what is
 * wanted of it. bafirolen.h includes this.
 *
 * WHAT IS PROMISED. Take one call on the first n bytes of a message and one on the whole of it, with equal start, tables and
 * request; the whole has at most 4,294,967,295 bytes.
 *   - If the short call accepts, or refuses other than by BAFIROLEN_REFUSED_SHORTAGE, the long one gives the same, and leaves the
 *     same in what it is lent.
 *   - If it says shortage at p, then p is above n. Every call on n to p - 1 bytes of the same message says p too, and one on p
 *     bytes or more never wants p or less.
 *   - If the whole is accepted, no call on fewer bytes wants one behind its tail.
 * This is proved of what reads a body, under a policy or none, a section, an authentication record or frames, of
 * bafirolen_find_value, of both functions of bafirolen_reissue.h, and of bafirolen_write_only_authenticated, whose text belongs to
 * the request: it is the same in both calls, also where it is the message.
 *
 * THE LOOP. `held` is how many bytes of the message are in `buffer`, at first maybe none. `more` stands for a source, such as
 * read(2): it stores up to so many bytes and answers how many, 0 where no more will come, and less where it fails.
 *
 *     for (;;) {
 *         b = bafirolen_read_header_body(buffer, held, 0, which, mode, has_max, max, pairs, pairs_len, keys, keys_len);
 *         if (b.number != BAFIROLEN_REFUSED_SHORTAGE || b.position > sizeof buffer) {
 *             break; // accepted, or refused, or longer than the buffer, which is the limit
 *         }
 *         while (held < b.position && (got = more(buffer + held, b.position - held)) > 0) {
 *             held += got;
 *         }
 *         if (held < b.position) {
 *             break; // no more will come: b is still what is answered to the bytes held
 *         }
 *     }
 *
 * It asks for no byte behind a header that is accepted, and where one is refused, for none that the refusal does not need: the
 * source still has them. It goes likewise with each function named above: what stands behind a header is fetched into the same
 * buffer, from the `held` of before. The loop is an example, and not proved.
 *
 * ITS ROUNDS. A round is one shortage, and the fetch up to its position. A context section takes at most 2, however many pairs it
 * has; a key section 1, and 6 for each key; an authentication record 2, in version 2 only 1; a body and frames as many as the
 * macros below say, however many bytes are there at first. A round of a header fetches fewer than 65,536 bytes, beside those in
 * front of its start that are not there yet. These figures are proved, too. But each call reads from `start` again, so that many
 * small rounds cost many reads: from a source that has more at hand, fetch in larger pieces. The answer is the same, but bytes
 * behind the header may then be held.
 */
#ifndef BAFIROLEN_FETCH_H
#define BAFIROLEN_FETCH_H

#include <stdint.h>

/*
 * The most rounds for a body that has so many encrypted data keys. One of version 1 with a pair and no empty part of a key takes as
 * many, if no byte is there at first; one of version 2 takes at least 2 fewer. A count of keys has 16 bits, so that no message,
 * however damaged, takes more than BAFIROLEN_MOST_ROUNDS(65535), which is 393,221.
 */
#define BAFIROLEN_MOST_ROUNDS(keys) (11 + 6 * (uint64_t)(keys))

/* The most rounds for so many frames, the final one included; 0 counts as 1. The argument is looked at twice. */
#define BAFIROLEN_MOST_FRAME_ROUNDS(frames) (6 + 4 * ((uint64_t)(frames) - ((frames) > 0)))

#endif
