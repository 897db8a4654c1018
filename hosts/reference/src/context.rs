//! Reading an encryption context section, and finding a value in one.

use crate::leaves::{part, read_bytes, read_entry, read_u16, test_end, Place};
use crate::refusal::*;
use crate::seen::Seen;
use crate::tables::{put_place, NUMBERS_A_PAIR};
use crate::utf8::is_utf8;

/// Whether the old form of an empty section, 00 02 00 00, is accepted.
#[derive(Clone, Copy, Debug, PartialEq, Eq)]
pub enum Mode {
    Tolerant,
    Strict,
}

/// An accepted section: how many pairs it has, and the next byte's place.
#[derive(Clone, Copy, Debug, PartialEq, Eq)]
pub struct PairsRead {
    pub pairs: u32,
    pub tail: u64,
}

/// A section that passed every test but that of the table.
#[derive(Clone, Copy)]
pub(crate) struct Section {
    pub count: u32,
    pub tail: u64,
    /// Stored as 00 02 00 00.
    pub old: bool,
    first_pair: u64,
}

impl Section {
    /// Whether a table has the numbers for every pair.
    pub fn fits(&self, pairs: &[u32]) -> bool {
        pairs.len() >= NUMBERS_A_PAIR * self.count as usize
    }

    /// Fills the table with the pairs' places. The lengths are read a second
    /// time: nothing could be stored before the last test.
    pub fn fill(&self, message: &[u8], pairs: &mut [u32]) {
        for (entry, (key, value)) in pairs
            .chunks_exact_mut(NUMBERS_A_PAIR)
            .zip(self.places(message))
        {
            put_place(entry, key);
            put_place(&mut entry[2..], value);
        }
    }

    /// The places of each pair's key and value, in the section's order. The
    /// walk has held them against the section's end.
    pub fn places<'a>(&self, message: &'a [u8]) -> impl Iterator<Item = (Place, Place)> + 'a {
        let mut at = self.first_pair;
        (0..self.count).map_while(move |_| {
            let key = read_entry(message, at, None).ok()?;
            let value = read_entry(message, key.end(), None).ok()?;
            at = value.end();
            Some((key, value))
        })
    }
}

/// All tests of a section but 1 and 22, in order: 2 at the length, the whole
/// section; 32, 2 of the count; 8; 21 (strict); 9; the pairs'; 14.
pub(crate) fn walk(message: &[u8], start: u64, mode: Mode) -> Result<Section, Refusal> {
    let (length, body) = read_u16(message, start)?;
    let length = u64::from(length);
    if length == 0 {
        return Ok(Section {
            count: 0,
            tail: body,
            old: false,
            first_pair: body,
        });
    }
    let end = read_bytes(message, body, length)?.end();
    // With length 1 the count's second byte lies past the section.
    test_end(body, 2, end)?;
    let (count, first_pair) = read_u16(message, body)?;
    if length == 2 {
        if count != 0 {
            return Err(Refusal::of(COUNT_IN_EMPTY_SECTION));
        }
        if mode == Mode::Strict {
            return Err(Refusal::of(OLD_FORM));
        }
        return Ok(Section {
            count: 0,
            tail: first_pair,
            old: true,
            first_pair,
        });
    }
    if count == 0 {
        return Err(Refusal::of(NO_PAIRS_IN_SECTION));
    }
    let tail = walk_pairs(message, first_pair, count, end)?;
    if tail < end {
        return Err(Refusal::of(SECTION_END));
    }
    Ok(Section {
        count: u32::from(count),
        tail,
        old: false,
        first_pair,
    })
}

/// The tests of each pair; answers the end of the last, which is at most the
/// section's. 32, 2 of the key's length, 32, 2 of its bytes, 10; the same of
/// the value, 11; 12.
fn walk_pairs(message: &[u8], first_pair: u64, count: u16, end: u64) -> Result<u64, Refusal> {
    let mut seen = Seen::new();
    let mut at = first_pair;
    for _ in 0..count {
        let key = read_entry(message, at, Some(end))?;
        let key_part = part(message, key);
        if !is_utf8(key_part) {
            return Err(Refusal::of(KEY_NOT_UTF8));
        }
        let value = read_entry(message, key.end(), Some(end))?;
        if !is_utf8(part(message, value)) {
            return Err(Refusal::of(VALUE_NOT_UTF8));
        }
        if !seen.insert(key_part) {
            return Err(Refusal::of(KEY_SEEN));
        }
        at = value.end();
    }
    Ok(at)
}

/// Reads a context section: 1; 2 at the length, the whole section; 32, 2 of
/// the count; 8; 21 (strict); 9; per pair 32, 2 of the key's length, 32, 2 of
/// its bytes, 10, the same of the value, 11, 12; 14; 22. What is there whole
/// has no shortage inside, so each 2 behind a 32 is never answered.
pub fn read_aad_section(
    message: &[u8],
    start: u64,
    mode: Mode,
    pairs: &mut [u32],
) -> Result<PairsRead, Refusal> {
    test_sizes(message, start)?;
    let section = walk(message, start, mode)?;
    if !section.fits(pairs) {
        return Err(Refusal::of(PAIR_TABLE));
    }
    section.fill(message, pairs);
    Ok(PairsRead {
        pairs: section.count,
        tail: section.tail,
    })
}

/// The place of the value under `key` in the section at `start`, read
/// tolerantly. Keys differ, so there is at most one; any bytes may be asked
/// for. The section's but 22; 29.
pub fn find(message: &[u8], start: u64, key: &[u8]) -> Result<Place, Refusal> {
    test_sizes(message, start)?;
    let section = walk(message, start, Mode::Tolerant)?;
    let found = section
        .places(message)
        .find(|&(place, _)| part(message, place) == key);
    match found {
        Some((_, value)) => Ok(value),
        None => Err(Refusal::of(NOT_FOUND)),
    }
}

/// The value itself as a part of the message; on any refusal the empty part
/// at the message's front.
pub fn find_part<'a>(message: &'a [u8], start: u64, key: &[u8]) -> &'a [u8] {
    match find(message, start, key) {
        Ok(value) => part(message, value),
        Err(_) => &message[..0],
    }
}
