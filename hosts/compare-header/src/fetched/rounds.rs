//! The most rounds in which a message is fetched by what is wanted, from
//! whatever length on. A round is an answer 2, and one fetch up to its
//! position. What is damaged takes no more than what it says it has.

use reference::{lookup, read_u16, read_u32, read_u8};

/// A number of a message, 0 where it isn't there.
fn number_at(message: &[u8], at: u64) -> u64 {
    read_u16(message, at).map_or(0, |(number, _)| number.into())
}

/// Length and bytes of the three parts of each key.
const A_KEY: u64 = 6;

/// In version 1 those of version, type, suite, ID, context length, context and
/// key count, and of content type, reserved bytes, IV length and frame length;
/// version 2 has no type, reserved bytes and IV length, but suite data.
pub fn of_body(message: &[u8], start: u64) -> u64 {
    let (beside, front) = match read_u8(message, start) {
        Ok((2, _)) => (9, 35),
        _ => (11, 20),
    };
    let context = start.saturating_add(front);
    let length = number_at(message, context);
    let keys = context.saturating_add(2 + length);
    beside + A_KEY * number_at(message, keys)
}

/// Of the length and the section, however many pairs it has.
pub const OF_CONTEXT: u64 = 2;

pub fn of_keys(message: &[u8], start: u64) -> u64 {
    1 + A_KEY * number_at(message, start)
}

/// Of the IV, which only version 1 has, and the tag.
pub fn of_record(suite: u32) -> u64 {
    lookup(suite).map_or(0, |suite| if suite.version == 1 { 2 } else { 1 })
}

/// Number, IV, content and tag of each regular frame that is there whole; of
/// the frame behind them, which may be the final one, two more.
pub fn of_frames(message: &[u8], start: u64, frame_length: u32) -> u64 {
    let length = 4 + 12 + u64::from(frame_length) + 16;
    let (mut at, mut regular) = (start, 0);
    while read_u32(message, at).is_ok_and(|(number, _)| u64::from(number) == regular + 1)
        && at + length <= message.len() as u64
    {
        at += length;
        regular += 1;
    }
    4 * regular + 6
}
