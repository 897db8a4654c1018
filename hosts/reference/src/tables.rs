//! Tables of 32-bit numbers: a start and a length for each part, four numbers
//! a pair, six a key and six a frame.

use crate::leaves::{Place, ENTRY_MAX};
use crate::refusal::{Refusal, PLACES, TOO_MANY_OR_LONG};

pub const NUMBERS_A_PAIR: usize = 4;
pub const NUMBERS_A_KEY: usize = 6;
pub const NUMBERS_A_FRAME: usize = 6;

/// The greatest count a section can store; and the most frames that are
/// written.
pub const COUNT_MAX: usize = u16::MAX as usize;

/// Puts a part's place at the front of a table's rest. A reader's places lie
/// below 2^32, as refusal 1 has been tested.
#[inline]
pub(crate) fn put_place(table: &mut [u32], place: Place) {
    table[0] = place.start as u32;
    table[1] = place.len as u32;
}

/// The part of the text at a tested place.
#[inline]
pub(crate) fn text_part<'a>(text: &'a [u8], place: &[u32]) -> &'a [u8] {
    let start = place[0] as usize;
    &text[start..start + place[1] as usize]
}

/// Whether a place lies inside the text. One of no bytes may stand at its end;
/// the sum of two 32-bit numbers needs more than 32 bits.
#[inline]
pub(crate) fn inside(text: &[u8], place: &[u32]) -> bool {
    u64::from(place[0]) + u64::from(place[1]) <= text.len() as u64
}

/// Refusals 26 and 27 of a writer's table: the whole of 26 comes first.
/// Answers the bytes its entries take when written.
pub(crate) fn test_table(text: &[u8], table: &[u32], numbers: usize) -> Result<u64, Refusal> {
    if !table.len().is_multiple_of(numbers) {
        return Err(Refusal::of(PLACES));
    }
    let mut longest = 0u64;
    let mut total = 0u64;
    for place in table.chunks_exact(2) {
        let len = u64::from(place[1]);
        if !inside(text, place) {
            return Err(Refusal::of(PLACES));
        }
        longest = longest.max(len);
        total += 2 + len;
    }
    if table.len() / numbers > COUNT_MAX || longest > ENTRY_MAX {
        return Err(Refusal::of(TOO_MANY_OR_LONG));
    }
    Ok(total)
}
