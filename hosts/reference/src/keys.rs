//! The section of encrypted data keys, read and written.

use crate::leaves::{part, put, put_entry, read_entry, read_u16, Place};
use crate::refusal::*;
use crate::tables::{put_place, test_table, text_part, NUMBERS_A_KEY};
use crate::utf8::is_utf8;

/// An accepted section: how many keys it has, and the next byte's place.
#[derive(Clone, Copy, Debug, PartialEq, Eq)]
pub struct KeysRead {
    pub keys: u32,
    pub tail: u64,
}

/// A key section that passed every test but that of the table.
#[derive(Clone, Copy)]
pub(crate) struct Section {
    pub count: u32,
    pub tail: u64,
    first_key: u64,
}

impl Section {
    /// Whether a table has the numbers for every key.
    pub fn fits(&self, keys: &[u32]) -> bool {
        keys.len() >= NUMBERS_A_KEY * self.count as usize
    }

    /// Fills the table with the keys' places, part by part.
    pub fn fill(&self, message: &[u8], keys: &mut [u32]) {
        let numbers = NUMBERS_A_KEY * self.count as usize;
        let mut at = self.first_key;
        for entry in keys[..numbers].chunks_exact_mut(2) {
            // The walk has read these entries, so they are there.
            let Ok(place) = read_entry(message, at, None) else {
                return;
            };
            put_place(entry, place);
            at = place.end();
        }
    }
}

/// The places of each key's provider ID, provider info and ciphertext, in a
/// section that was read, by its count and the place of its first key.
pub(crate) fn places(
    message: &[u8],
    count: u32,
    first_key: u64,
) -> impl Iterator<Item = [Place; 3]> + '_ {
    let mut at = first_key;
    (0..count).map_while(move |_| {
        let provider = read_entry(message, at, None).ok()?;
        let info = read_entry(message, provider.end(), None).ok()?;
        let ciphertext = read_entry(message, info.end(), None).ok()?;
        at = ciphertext.end();
        Some([provider, info, ciphertext])
    })
}

/// All tests of a key section but 1 and 23, in order. The count is tested
/// before any key is read, against 0 and then against the maximum. No length
/// is stored for the section, so its entries have no end to go past.
pub(crate) fn walk(message: &[u8], start: u64, max: Option<u64>) -> Result<Section, Refusal> {
    let (count, first_key) = read_u16(message, start)?;
    if count == 0 {
        return Err(Refusal::of(NO_ENCRYPTED_DATA_KEY));
    }
    if max.is_some_and(|max| u64::from(count) > max) {
        return Err(Refusal::of(ABOVE_MAXIMUM));
    }
    let mut at = first_key;
    for _ in 0..count {
        let provider = read_entry(message, at, None)?;
        if !is_utf8(part(message, provider)) {
            return Err(Refusal::of(PROVIDER_NOT_UTF8));
        }
        let info = read_entry(message, provider.end(), None)?;
        at = read_entry(message, info.end(), None)?.end();
    }
    Ok(Section {
        count: u32::from(count),
        tail: at,
        first_key,
    })
}

/// Reads a key section: 1; 2 at the count; 38; 15; per key 2, 16, 2, 2; 23.
pub fn read_encrypted_data_keys_section(
    message: &[u8],
    start: u64,
    max: Option<u64>,
    keys: &mut [u32],
) -> Result<KeysRead, Refusal> {
    test_sizes(message, start)?;
    let section = walk(message, start, max)?;
    if !section.fits(keys) {
        return Err(Refusal::of(KEY_TABLE));
    }
    section.fill(message, keys);
    Ok(KeysRead {
        keys: section.count,
        tail: section.tail,
    })
}

/// All tests of the keys but 28, in order; answers the section's length.
pub(crate) fn test_keys(text: &[u8], keys: &[u32]) -> Result<u64, Refusal> {
    let total = test_table(text, keys, NUMBERS_A_KEY)?;
    if keys.is_empty() {
        return Err(Refusal::of(NO_ENCRYPTED_DATA_KEY));
    }
    for key in keys.chunks_exact(NUMBERS_A_KEY) {
        if !is_utf8(text_part(text, key)) {
            return Err(Refusal::of(PROVIDER_NOT_UTF8));
        }
    }
    Ok(2 + total)
}

/// Writes tested keys; answers the place after them.
pub(crate) fn put_section(text: &[u8], keys: &[u32], out: &mut [u8]) -> usize {
    let count = (keys.len() / NUMBERS_A_KEY) as u16;
    let mut at = put(out, 0, &count.to_be_bytes());
    for place in keys.chunks_exact(2) {
        at = put_entry(out, at, text_part(text, place));
    }
    at
}

/// Writes a key section from the output's first byte; answers its length.
/// 26; 27; 38; per key 16; 28.
pub fn write_encrypted_data_keys_section(
    text: &[u8],
    keys: &[u32],
    out: &mut [u8],
) -> Result<u64, Refusal> {
    let length = test_keys(text, keys)?;
    if length > out.len() as u64 {
        return Err(Refusal::of(OUTPUT));
    }
    put_section(text, keys, out);
    Ok(length)
}
