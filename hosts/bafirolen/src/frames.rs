//! Reading the frames behind a header.

use crate::parts::part;
use crate::{Refusal, NUMBERS_PER_FRAME};
use core::fmt;
use core::iter::FusedIterator;
use core::slice::ChunksExact;

/// A frame, as parts of the message that it was read from. Nothing of it is
/// verified or decrypted.
#[derive(Clone, Copy, Debug, PartialEq, Eq, Hash)]
pub struct Frame<'m> {
    /// Its IV, [`IV_LEN`](crate::IV_LEN) bytes.
    pub iv: &'m [u8],
    /// Its content, still encrypted: as many bytes as the frame length, in the
    /// final frame up to that many.
    pub content: &'m [u8],
    /// Its tag, [`TAG_LEN`](crate::TAG_LEN) bytes.
    pub tag: &'m [u8],
}

/// Accepted frames in their order. There is at least one, and the last is the
/// final one. Their sequence numbers are 1, 2, 3 and so on.
///
/// As an iterator it knows how many are still to come, and a clone goes on by
/// itself; `nth` takes no longer than `next`.
#[derive(Clone)]
#[must_use = "iterators give nothing until they are asked"]
pub struct Frames<'m, 't> {
    message: &'m [u8],
    table: &'t [u32],
    entries: ChunksExact<'t, u32>,
    tail: u64,
}

impl<'m, 't> Frames<'m, 't> {
    /// The place right after the final frame.
    #[inline]
    #[must_use]
    pub fn tail(&self) -> u64 {
        self.tail
    }

    /// What was filled of the table: [`NUMBERS_PER_FRAME`] numbers a frame,
    /// start and length of its IV, of its content and of its tag. It is that of
    /// all frames, however many are still to come. With the message as the text
    /// [`write_frames`](crate::write_frames) takes it as it is.
    #[inline]
    #[must_use]
    pub fn frame_table(&self) -> &'t [u32] {
        self.table
    }

    #[inline]
    fn frame(&self, entry: &[u32]) -> Frame<'m> {
        Frame {
            iv: part(self.message, entry, 0),
            content: part(self.message, entry, 1),
            tag: part(self.message, entry, 2),
        }
    }
}

impl<'m> Iterator for Frames<'m, '_> {
    type Item = Frame<'m>;

    #[inline]
    fn next(&mut self) -> Option<Frame<'m>> {
        let entry = self.entries.next()?;
        Some(self.frame(entry))
    }

    #[inline]
    fn nth(&mut self, n: usize) -> Option<Frame<'m>> {
        let entry = self.entries.nth(n)?;
        Some(self.frame(entry))
    }

    #[inline]
    fn size_hint(&self) -> (usize, Option<usize>) {
        self.entries.size_hint()
    }
}

impl ExactSizeIterator for Frames<'_, '_> {}
impl FusedIterator for Frames<'_, '_> {}

/// Shows the frames that are still to come.
impl fmt::Debug for Frames<'_, '_> {
    fn fmt(&self, f: &mut fmt::Formatter<'_>) -> fmt::Result {
        f.debug_list().entries(self.clone()).finish()
    }
}

/// Reads the frames at `start`, the final one included. Where the content of a
/// header is framed, they stand right after its
/// [authentication record](crate::read_header_auth_tag), and the header's
/// `numbers.frame_length` is their length. The table is filled with the places
/// of the frames' parts, which the answer then borrows; beyond these it keeps
/// what it held. One of [`frame_table_len`](crate::frame_table_len) numbers is
/// never too short.
///
/// A regular frame has a sequence number of 4 bytes, an IV of 12, content of
/// exactly the frame length, and a tag of 16 bytes. The final frame has
/// FF FF FF FF, its sequence number, an IV, a length of 4 bytes, content of that
/// length, and a tag; its content may be empty, and is at most as long as the
/// frame length. The numbers run from 1 by one, the final frame's included.
///
/// ```
/// use bafirolen::read_frames;
///
/// # fn main() -> Result<(), bafirolen::Refusal> {
/// // A frame of 3 bytes, and the final one of 2.
/// let message = b"\x00\x00\x00\x01--- IV 1 ---abc----- tag 1 ----\
///     \xFF\xFF\xFF\xFF\x00\x00\x00\x02--- IV 2 ---\x00\x00\x00\x02de----- tag 2 ----";
/// let mut table = [0; 60]; // up to ten frames
/// let frames = read_frames(message, 0, 3, &mut table)?;
/// assert_eq!((frames.len(), frames.tail()), (2, 77));
/// for (frame, number) in frames.zip(1..) {
///     assert_eq!(frame.iv, format!("--- IV {number} ---").as_bytes());
///     assert_eq!(frame.content, if number == 1 { &b"abc"[..] } else { b"de" });
///     assert_eq!(frame.tag, format!("----- tag {number} ----").as_bytes());
/// }
/// # Ok(())
/// # }
/// ```
///
/// # Errors
///
/// In the order of the tests:
/// - 1 [`NotAddressable`](Refusal::NotAddressable);
/// - 20 [`FrameLength`](Refusal::FrameLength), where the frame length is 0;
/// - 2 [`Shortage`](Refusal::Shortage), where the next part of a frame is not
///   all there;
/// - 34 [`SequenceNumber`](Refusal::SequenceNumber), of each frame as soon as
///   its number is read;
/// - 35 [`FinalContentTooLong`](Refusal::FinalContentTooLong), as soon as the
///   length of the final content is read;
/// - 23 [`KeyTableTooShort`](Refusal::KeyTableTooShort).
#[inline]
pub fn read_frames<'m, 't>(
    message: &'m [u8],
    start: u64,
    frame_length: u32,
    table: &'t mut [u32],
) -> Result<Frames<'m, 't>, Refusal> {
    // SAFETY: pointers and lengths are the slices'; `table` is borrowed alone,
    // so it doesn't overlap the message.
    let record = unsafe {
        bafirolen_sys::bafirolen_read_frames(
            message.as_ptr(),
            message.len(),
            start,
            frame_length,
            table.as_mut_ptr(),
            table.len(),
        )
    };
    Refusal::test(record.number, record.position)?;
    let table: &'t [u32] = &table[..NUMBERS_PER_FRAME * record.count as usize];
    Ok(Frames {
        message,
        table,
        entries: table.chunks_exact(NUMBERS_PER_FRAME),
        tail: record.tail,
    })
}
