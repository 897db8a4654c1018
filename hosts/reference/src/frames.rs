//! The frames of a message's content, read.

use crate::leaves::{read_bytes, read_u32, Place};
use crate::refusal::*;
use crate::suites::Suite;
use crate::tables::{put_place, NUMBERS_A_FRAME};

/// FF FF FF FF: a final frame, whose own number stands behind it.
pub(crate) const FINAL: u32 = u32::MAX;
/// The bytes of a number, which a regular frame begins with.
const NUMBER: u64 = 4;

/// Accepted frames: how many there are, and the next byte's place.
#[derive(Clone, Copy, Debug, PartialEq, Eq)]
pub struct FramesRead {
    pub frames: u32,
    pub tail: u64,
}

/// Where the parts of a frame lie.
#[derive(Clone, Copy)]
struct Frame {
    iv: Place,
    content: Place,
    tag: Place,
}

impl Frame {
    /// A regular frame of a length that begins at `at`.
    fn regular(at: u64, length: u64) -> Frame {
        let part = |start, len| Place { start, len };
        let iv = part(at + NUMBER, Suite::IV_LEN);
        let content = part(iv.end(), length);
        let tag = part(content.end(), Suite::TAG_LEN);
        Frame { iv, content, tag }
    }

    fn put(self, entry: &mut [u32]) {
        put_place(entry, self.iv);
        put_place(&mut entry[2..], self.content);
        put_place(&mut entry[4..], self.tag);
    }
}

/// Frames that passed every test but that of the table. The regular ones are
/// of one length, so that where each of them lies needs no second look.
struct Run {
    start: u64,
    frame_length: u64,
    count: u32,
    last: Frame,
}

impl Run {
    /// Whether a table has the numbers for every frame.
    fn fits(&self, table: &[u32]) -> bool {
        table.len() >= NUMBERS_A_FRAME * self.count as usize
    }

    /// Fills the table with the places of the frames' parts.
    fn fill(&self, table: &mut [u32]) {
        let numbers = NUMBERS_A_FRAME * self.count as usize;
        let (regular, last) = table[..numbers].split_at_mut(numbers - NUMBERS_A_FRAME);
        let mut at = self.start;
        for entry in regular.chunks_exact_mut(NUMBERS_A_FRAME) {
            let frame = Frame::regular(at, self.frame_length);
            at = frame.tag.end();
            frame.put(entry);
        }
        self.last.put(last);
    }
}

/// Refusal 34, tested as soon as a number is read.
fn test_number(number: u32, next: u32) -> Result<(), Refusal> {
    if number != next {
        return Err(Refusal::of(SEQUENCE_NUMBER));
    }
    Ok(())
}

/// What stands behind the FF FF FF FF of the final frame: 2 at its number, 34;
/// 2 at the IV; 2 at the content's length, 35; 2 at the content; 2 at the tag.
fn read_final(message: &[u8], at: u64, frame_length: u32, next: u32) -> Result<Frame, Refusal> {
    let (number, at) = read_u32(message, at)?;
    test_number(number, next)?;
    let iv = read_bytes(message, at, Suite::IV_LEN)?;
    let (length, at) = read_u32(message, iv.end())?;
    if length > frame_length {
        return Err(Refusal::of(FINAL_CONTENT));
    }
    let content = read_bytes(message, at, u64::from(length))?;
    let tag = read_bytes(message, content.end(), Suite::TAG_LEN)?;
    Ok(Frame { iv, content, tag })
}

/// All tests of the frames but 1, 20 and 23, in order: up to the final frame
/// 2 at the number, 34; 2 at the IV; 2 at the content; 2 at the tag. Frames
/// take 33 bytes or more, so their numbers stay far below 2^32.
fn walk(message: &[u8], start: u64, frame_length: u32) -> Result<Run, Refusal> {
    let length = u64::from(frame_length);
    let (mut at, mut next) = (start, 1);
    loop {
        let (number, behind) = read_u32(message, at)?;
        if number == FINAL {
            return Ok(Run {
                start,
                frame_length: length,
                count: next,
                last: read_final(message, behind, frame_length, next)?,
            });
        }
        test_number(number, next)?;
        let iv = read_bytes(message, behind, Suite::IV_LEN)?;
        let content = read_bytes(message, iv.end(), length)?;
        at = read_bytes(message, content.end(), Suite::TAG_LEN)?.end();
        next += 1;
    }
}

/// Reads frames, the final one included: 1; 20; of each frame in turn 2, 34
/// and, where it is the final one, 35; 23.
pub fn read_frames(
    message: &[u8],
    start: u64,
    frame_length: u32,
    table: &mut [u32],
) -> Result<FramesRead, Refusal> {
    test_sizes(message, start)?;
    if frame_length == 0 {
        return Err(Refusal::of(FRAME_LENGTH));
    }
    let run = walk(message, start, frame_length)?;
    // The table comes last, so that a short one never hides a bad frame.
    if !run.fits(table) {
        return Err(Refusal::of(KEY_TABLE));
    }
    run.fill(table);
    Ok(FramesRead {
        frames: run.count,
        tail: run.last.tag.end(),
    })
}
