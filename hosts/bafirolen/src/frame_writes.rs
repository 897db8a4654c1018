//! Writing frames, and how long they are before.

use crate::writes::length;
use crate::Refusal;

/// Says how long an output [`write_frames`] needs for a table of frames: how
/// many bytes it would write. Before the last each frame takes 32 bytes and its
/// content, which has as many bytes as the frame length; the last takes 40 bytes
/// and its content.
///
/// A refusal here is the writer's answer whatever output it is lent. Where
/// there is none, the writer answers 28
/// [`OutputTooShort`](Refusal::OutputTooShort) exactly where the output is
/// shorter, and otherwise writes just so many bytes.
///
/// Frames may share their places, so that all of them may be far longer than
/// the text: up to 281 TB.
///
/// ```
/// use bafirolen::{frames_len, write_frames, Refusal};
///
/// # fn main() -> Result<(), Refusal> {
/// let text = b"abcde--- IV 1 ------ IV 2 -------- tag 1 --------- tag 2 ----";
/// // IV, content and tag of a frame of 3 bytes, and of the final one of 2.
/// let frames = [5, 12, 0, 3, 29, 16, 17, 12, 3, 2, 45, 16];
/// let length = frames_len(3, text, &frames)?;
/// assert_eq!(length, (32 + 3) + (40 + 2));
/// let mut out = vec![0; length];
/// assert_eq!(write_frames(3, text, &frames, &mut out), Ok(length));
/// let short = &mut out[1..];
/// assert_eq!(write_frames(3, text, &frames, short), Err(Refusal::OutputTooShort));
///
/// // What no output would change is refused already.
/// assert_eq!(frames_len(4, text, &frames), Err(Refusal::RegularContentLength));
/// # Ok(())
/// # }
/// ```
///
/// # Errors
///
/// Those of the writer but 28, in the order of the tests:
/// - 20 [`FrameLength`](Refusal::FrameLength), where the frame length is 0;
/// - 26 [`TableOrPlace`](Refusal::TableOrPlace);
/// - 36 [`NoFrame`](Refusal::NoFrame), where the table is empty;
/// - 27 [`CountOrPartTooLong`](Refusal::CountOrPartTooLong), where there are
///   more than 65,535 frames;
/// - of each frame 19 [`IvLength`](Refusal::IvLength) and
///   30 [`TagLength`](Refusal::TagLength);
/// - 37 [`RegularContentLength`](Refusal::RegularContentLength), where the
///   content of a frame before the last is not as long as the frame length;
/// - 35 [`FinalContentTooLong`](Refusal::FinalContentTooLong), where that of the
///   last is longer.
#[inline]
pub fn frames_len(frame_length: u32, text: &[u8], frames: &[u32]) -> Result<usize, Refusal> {
    // SAFETY: pointers and lengths are the slices', which are only read.
    length(unsafe {
        bafirolen_sys::bafirolen_frames_len(
            frame_length,
            text.as_ptr(),
            text.len(),
            frames.as_ptr(),
            frames.len(),
        )
    })
}

/// Writes the frames of a table, whose places lie in `text`, to the front of
/// `out`; answers their length, which [`frames_len`] gives before. The table has
/// [`NUMBERS_PER_FRAME`](crate::NUMBERS_PER_FRAME) numbers a frame, start and
/// length of its IV, of its content and of its tag, all of which are taken; the
/// last frame becomes the final one. Frames are numbered from 1.
///
/// In a message they stand right behind the
/// [authentication record](crate::write_header_auth_tag) of a header whose
/// content is framed, and whose `numbers.frame_length` is their length. Nothing
/// is encrypted: IVs, contents and tags are what a cipher gave.
///
/// What is written is read by [`read_frames`](crate::read_frames), by the same
/// frame length, as the same parts, if it has at most 4,294,967,295 bytes and
/// the table that is lent there holds it. Up to 65,535 frames that were read are
/// written again, by that frame length, to the bytes that were read: lend the
/// message as the text, and [`frame_table`](crate::Frames::frame_table).
///
/// ```
/// use bafirolen::{read_frames, write_frames};
///
/// # fn main() -> Result<(), bafirolen::Refusal> {
/// let text = b"abcde--- IV 1 ------ IV 2 -------- tag 1 --------- tag 2 ----";
/// let frames = [5, 12, 0, 3, 29, 16, 17, 12, 3, 2, 45, 16];
/// let mut out = [0; 77];
/// assert_eq!(write_frames(3, text, &frames, &mut out)?, 77);
/// assert_eq!(out, *b"\x00\x00\x00\x01--- IV 1 ---abc----- tag 1 ----\
///     \xFF\xFF\xFF\xFF\x00\x00\x00\x02--- IV 2 ---\x00\x00\x00\x02de----- tag 2 ----");
///
/// // Read and written again.
/// let (mut table, mut again) = ([0; 12], [0; 77]);
/// let read = read_frames(&out, 0, 3, &mut table)?;
/// assert_eq!(write_frames(3, &out, read.frame_table(), &mut again)?, 77);
/// assert_eq!(again, out);
/// # Ok(())
/// # }
/// ```
///
/// # Errors
///
/// In the order of the tests:
/// - 20 [`FrameLength`](Refusal::FrameLength), where the frame length is 0;
/// - 26 [`TableOrPlace`](Refusal::TableOrPlace);
/// - 36 [`NoFrame`](Refusal::NoFrame), where the table is empty;
/// - 27 [`CountOrPartTooLong`](Refusal::CountOrPartTooLong), where there are
///   more than 65,535 frames;
/// - of each frame 19 [`IvLength`](Refusal::IvLength) and
///   30 [`TagLength`](Refusal::TagLength);
/// - 37 [`RegularContentLength`](Refusal::RegularContentLength), where the
///   content of a frame before the last is not as long as the frame length;
/// - 35 [`FinalContentTooLong`](Refusal::FinalContentTooLong), where that of the
///   last is longer;
/// - 28 [`OutputTooShort`](Refusal::OutputTooShort).
#[inline]
pub fn write_frames(
    frame_length: u32,
    text: &[u8],
    frames: &[u32],
    out: &mut [u8],
) -> Result<usize, Refusal> {
    // SAFETY: pointers and lengths are the slices'; `out` is borrowed alone,
    // so it overlaps neither.
    length(unsafe {
        bafirolen_sys::bafirolen_write_frames(
            frame_length,
            text.as_ptr(),
            text.len(),
            frames.as_ptr(),
            frames.len(),
            out.as_mut_ptr(),
            out.len(),
        )
    })
}

/// Writes the frames of a table to a vector of just their length: asks
/// [`frames_len`], and lends an output of so many bytes to [`write_frames`]. It
/// is there with the feature `alloc`, which is on by default.
///
/// Memory that can't be had ends the program, as it does for any vector: where
/// frames may want more than there is, ask for the length first.
///
/// ```
/// use bafirolen::frames_to_vec;
///
/// # fn main() -> Result<(), bafirolen::Refusal> {
/// // One frame, which is the final one, of no content.
/// let frame = frames_to_vec(4_096, b"--- IV 1 -------- tag 1 ----", &[0, 12, 0, 0, 12, 16])?;
/// assert_eq!(frame.len(), 40);
/// # Ok(())
/// # }
/// ```
///
/// # Errors
///
/// Those of [`frames_len`]; so never 28.
#[cfg(feature = "alloc")]
pub fn frames_to_vec(
    frame_length: u32,
    text: &[u8],
    frames: &[u32],
) -> Result<alloc::vec::Vec<u8>, Refusal> {
    let mut out = alloc::vec![0; frames_len(frame_length, text, frames)?];
    // As long as what is written, all of which was tested when it was measured.
    write_frames(frame_length, text, frames, &mut out)?;
    Ok(out)
}
