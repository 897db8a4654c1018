//! Fetching no more of a message than is wanted.

use crate::Refusal;

/// How a [`fetch`] ended.
#[derive(Clone, Copy, Debug, PartialEq, Eq, Hash)]
#[non_exhaustive]
#[must_use]
pub struct Fetched {
    /// How many bytes of the message the buffer holds, from its front on.
    pub held: usize,
    /// How many rounds it took: shortages upon which bytes were asked for,
    /// whether any came or not.
    pub rounds: u64,
    /// What is answered to the bytes held.
    pub answer: Result<(), Refusal>,
}

/// Fetches just what is wanted of a message: asks about the `held` first bytes
/// of `buffer`, and while the answer is a shortage, has `more` fetch the bytes
/// up to its position, and asks again.
///
/// `ask` calls a reader of this crate, with its start and whatever else it is
/// asked. What a reader accepts borrows the message, which is still to grow; so
/// `ask` keeps nothing of it, and the message is read once more when it is there.
///
/// `more` is lent just the bytes that are wanted and not there yet. It answers
/// how many of them it has stored, from the front on, as `std::io::Read::read`
/// does. Fewer than all are fine: it is called again for the others, in the
/// same round. 0 says that no more will come, at least for now. A number above
/// what it was lent counts as all of that.
///
/// The fetch ends
/// - where `ask` accepts, or refuses other than by a shortage;
/// - with a shortage whose position lies beyond the buffer. Lend a longer one
///   that begins with the bytes held, and fetch on, or reject the message: its
///   lengths may claim what never comes;
/// - with a shortage whose position lies in the buffer, where `more` has
///   answered 0. If more comes later, fetch on from the `held` that is answered;
/// - with the error of `more`.
///
/// A `held` above the buffer's length counts as that length. A shortage at a
/// position that is held already, which no function of this crate answers about
/// the bytes that it is lent, ends the fetch too.
///
/// ```
/// use bafirolen::{fetch, read_header_body, Request};
/// use std::io::Read;
///
/// # fn main() -> Result<(), Box<dyn std::error::Error>> {
/// // Whatever can be read from: here a header, and what stands behind it.
/// let mut source = &b"\x01\x80\x01\x78\x00\x01\x02\x03\x04\x05\x06\x07\x08\x09\x0A\x0B\x0C\x0D\x0E\x0F\
///     \x00\x0C\x00\x01\x00\x04lang\x00\x02cy\
///     \x00\x01\x00\x02p1\x00\x01a\x00\x03\xAA\xBB\xCC\
///     \x02\x00\x00\x00\x00\x0C\x00\x00\x10\x00record and frames"[..];
/// let mut buffer = [0; 4_096]; // no longer header is taken
/// let (mut pairs, mut keys) = ([0; 40], [0; 60]); // up to ten of each
/// let request = Request::default();
/// let fetched = fetch(
///     &mut buffer,
///     0,
///     |message| read_header_body(message, 0, request, &mut pairs, &mut keys).map(|_| ()),
///     |wanted| source.read(wanted),
/// )?;
/// fetched.answer?;
/// assert_eq!((fetched.held, fetched.rounds), (58, 17));
/// assert_eq!(source, b"record and frames");
///
/// let message = &buffer[..fetched.held];
/// let body = read_header_body(message, 0, request, &mut pairs, &mut keys)?;
/// assert_eq!(body.tail, 58);
/// # Ok(())
/// # }
/// ```
///
/// What stands behind, the authentication record and the frames, is fetched
/// likewise into the same buffer, from the `held` of before.
///
/// Each round reads from the start again, so that many small ones take long: of
/// k keys the first is read up to 6 k times. Where more is at hand than may be
/// wanted, put it to the buffer's front first, and say so by `held`: the answer
/// is the same, and the rounds are fewer; but bytes behind the header may then
/// be held.
///
/// # Promised
///
/// Take one call on the first n bytes of a message and one on the whole of it,
/// with equal start, tables and request; the whole has at most 4,294,967,295
/// bytes. Of the readers, [`find_value`](crate::find_value) and
/// [`write_only_authenticated`](crate::write_only_authenticated) it is proved:
///
/// - If the short call accepts, or refuses other than by 2, the long one gives
///   the same.
/// - If it says shortage at p, then p is above n. Every call on n to p - 1 bytes
///   of the same message says p too, and one on p bytes or more never wants p or
///   less.
/// - If the whole is accepted, no call on fewer bytes wants one behind its tail.
/// - However many bytes are there at first, a body takes at most [`most_rounds`],
///   a context section 2, a key section 1 and 6 for each key, an authentication
///   record 2, in version 2 only 1, and frames [`most_frame_rounds`].
/// - A round of a header fetches fewer than 65,536 bytes, beside those in front
///   of its start that are not there yet.
///
/// So `more` is never lent a byte behind what is accepted; and where a message is
/// refused, `held` is no more than that refusal needs, unless more was held at
/// first. What is proved are the answers. This loop over them is not; tests hold
/// it to what is said here. Whatever `ask` answers, it returns if `ask` and `more`
/// do: each round fills at least one more byte of the buffer, or is the last.
///
/// # Errors
///
/// That of `more`. The bytes that were stored before it are in the buffer, but
/// it is not said how many: a source that fails for a while only is better asked
/// again inside `more`, or answers 0.
pub fn fetch<E>(
    buffer: &mut [u8],
    held: usize,
    mut ask: impl FnMut(&[u8]) -> Result<(), Refusal>,
    mut more: impl FnMut(&mut [u8]) -> Result<usize, E>,
) -> Result<Fetched, E> {
    let mut held = held.min(buffer.len());
    let mut rounds = 0;
    loop {
        let answer = ask(&buffer[..held]);
        let end = wanted(answer, held).filter(|end| *end <= buffer.len());
        if let Some(end) = end {
            rounds += 1;
            held += filled(&mut buffer[held..end], &mut more)?;
        }
        // With fewer bytes than are wanted the answer stays the same.
        if end != Some(held) {
            return Ok(Fetched {
                held,
                rounds,
                answer,
            });
        }
    }
}

/// How many bytes are wanted, where that is more than are held.
fn wanted(answer: Result<(), Refusal>, held: usize) -> Option<usize> {
    match answer {
        Err(Refusal::Shortage { position }) => usize::try_from(position).ok(),
        _ => None,
    }
    .filter(|end| *end > held)
}

/// How many bytes came, from the front of the room on: all, unless no more do.
fn filled<E>(
    room: &mut [u8],
    more: &mut impl FnMut(&mut [u8]) -> Result<usize, E>,
) -> Result<usize, E> {
    let mut stored = 0;
    while stored < room.len() {
        let rest = &mut room[stored..];
        match more(rest)?.min(rest.len()) {
            0 => break,
            came => stored += came,
        }
    }
    Ok(stored)
}

/// The most rounds that a [`fetch`] of a body takes, 11 and 6 for each encrypted
/// data key, however many pairs it has and however many bytes are there at
/// first. A body of version 1 with a pair and no empty part of a key takes as
/// many from no byte on; one of version 2 takes at most 9 and 6 for each key. A
/// count of keys has 16 bits, so no message, however damaged, takes more than
/// `most_rounds(65_535)`.
///
/// ```
/// use bafirolen::most_rounds;
///
/// assert_eq!(most_rounds(1), 17);
/// assert_eq!(most_rounds(65_535), 393_221);
/// ```
#[inline]
#[must_use]
pub const fn most_rounds(keys: u64) -> u64 {
    keys.saturating_mul(6).saturating_add(11)
}

/// The most rounds that a [`fetch`] of so many frames takes, the final one
/// included: 6 for that, and 4 for each regular one. There is no run of 0 frames;
/// it is counted as one of 1.
///
/// ```
/// use bafirolen::most_frame_rounds;
///
/// assert_eq!(most_frame_rounds(1), 6); // the final frame alone
/// assert_eq!(most_frame_rounds(10), 42);
/// ```
#[inline]
#[must_use]
pub const fn most_frame_rounds(frames: u64) -> u64 {
    frames.saturating_sub(1).saturating_mul(4).saturating_add(6)
}
