//! Writing the frames of a message's content.

use crate::frames::FINAL;
use crate::leaves::put;
use crate::refusal::*;
use crate::suites::Suite;
use crate::tables::{inside, text_part, COUNT_MAX, NUMBERS_A_FRAME};

/// What a regular frame takes beside its content: number, IV and tag.
const REGULAR: u64 = 4 + Suite::IV_LEN + Suite::TAG_LEN;
/// What a final frame takes beside its content: FF FF FF FF, number, IV, length
/// and tag.
const LAST: u64 = 4 + 4 + Suite::IV_LEN + 4 + Suite::TAG_LEN;

const IV_BYTES: usize = Suite::IV_LEN as usize;
const TAG_BYTES: usize = Suite::TAG_LEN as usize;

/// Where an entry has the lengths of a frame's parts.
const IV: usize = 1;
const CONTENT: usize = 3;
const TAG: usize = 5;

/// Refusals 26, 36 and 27: the whole of 26 comes first.
fn test_places(text: &[u8], frames: &[u32]) -> Result<(), Refusal> {
    let whole = frames.len().is_multiple_of(NUMBERS_A_FRAME);
    if !whole || !frames.chunks_exact(2).all(|place| inside(text, place)) {
        return Err(Refusal::of(PLACES));
    }
    if frames.is_empty() {
        return Err(Refusal::of(NO_FRAME));
    }
    if frames.len() / NUMBERS_A_FRAME > COUNT_MAX {
        return Err(Refusal::of(TOO_MANY_OR_LONG));
    }
    Ok(())
}

/// Refusals 19 and 30 of one frame after the other.
fn test_sealed(frames: &[u32]) -> Result<(), Refusal> {
    for frame in frames.chunks_exact(NUMBERS_A_FRAME) {
        if u64::from(frame[IV]) != Suite::IV_LEN {
            return Err(Refusal::of(IV_LENGTH));
        }
        if u64::from(frame[TAG]) != Suite::TAG_LEN {
            return Err(Refusal::of(TAG_LENGTH));
        }
    }
    Ok(())
}

/// The frames before the last, and the last; there is one.
fn split(frames: &[u32]) -> (&[u32], &[u32]) {
    frames.split_at(frames.len() - NUMBERS_A_FRAME)
}

/// Says, without an output, how many bytes frames take when they are written.
/// 20; 26; 36; 27; per frame 19, 30; 37; 35.
pub fn frames_len(frame_length: u32, text: &[u8], frames: &[u32]) -> Result<u64, Refusal> {
    if frame_length == 0 {
        return Err(Refusal::of(FRAME_LENGTH));
    }
    test_places(text, frames)?;
    test_sealed(frames)?;
    let (regular, last) = split(frames);
    let mut contents = regular.chunks_exact(NUMBERS_A_FRAME);
    if contents.any(|frame| frame[CONTENT] != frame_length) {
        return Err(Refusal::of(REGULAR_CONTENT));
    }
    if last[CONTENT] > frame_length {
        return Err(Refusal::of(FINAL_CONTENT));
    }
    let count = (regular.len() / NUMBERS_A_FRAME) as u64;
    Ok(count * (REGULAR + u64::from(frame_length)) + LAST + u64::from(last[CONTENT]))
}

/// Copies so many bytes of the text from a start: of an IV and of a tag it is
/// known how many there are, which is faster than a part of any length.
#[inline]
fn put_sealed<const N: usize>(out: &mut [u8], at: usize, text: &[u8], start: u32) -> usize {
    let start = start as usize;
    put(out, at, &text[start..start + N])
}

/// Writes frames from the output's first byte, the last as the final one;
/// answers their length. What their length is refused by; 28.
pub fn write_frames(
    frame_length: u32,
    text: &[u8],
    frames: &[u32],
    out: &mut [u8],
) -> Result<u64, Refusal> {
    let length = frames_len(frame_length, text, frames)?;
    if length > out.len() as u64 {
        return Err(Refusal::of(OUTPUT));
    }
    let (regular, last) = split(frames);
    let (mut at, mut number) = (0, 1u32);
    for frame in regular.chunks_exact(NUMBERS_A_FRAME) {
        at = put(out, at, &number.to_be_bytes());
        at = put_sealed::<IV_BYTES>(out, at, text, frame[0]);
        at = put(out, at, text_part(text, &frame[2..]));
        at = put_sealed::<TAG_BYTES>(out, at, text, frame[4]);
        number += 1;
    }
    at = put(out, at, &FINAL.to_be_bytes());
    at = put(out, at, &number.to_be_bytes());
    at = put_sealed::<IV_BYTES>(out, at, text, last[0]);
    at = put(out, at, &last[CONTENT].to_be_bytes());
    at = put(out, at, text_part(text, &last[2..]));
    put_sealed::<TAG_BYTES>(out, at, text, last[4]);
    Ok(length)
}
