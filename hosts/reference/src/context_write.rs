//! Writing an encryption context section.

use crate::leaves::{put, put_entry};
use crate::refusal::*;
use crate::seen::Seen;
use crate::tables::{test_table, text_part, NUMBERS_A_PAIR};
use crate::utf8::is_utf8;

/// All pairs together take fewer bytes than this, so that with their count
/// they still fit the 16-bit section length.
pub const PAIRS_LIMIT: u64 = 65_534;

/// All tests of the pairs but 28, in order; answers the section's length. 13
/// is a writer's alone: what is read has a length that was stored.
pub(crate) fn test_pairs(text: &[u8], pairs: &[u32]) -> Result<u64, Refusal> {
    let total = test_table(text, pairs, NUMBERS_A_PAIR)?;
    let mut seen = Seen::new();
    for pair in pairs.chunks_exact(NUMBERS_A_PAIR) {
        let key = text_part(text, pair);
        if !is_utf8(key) {
            return Err(Refusal::of(KEY_NOT_UTF8));
        }
        if !is_utf8(text_part(text, &pair[2..])) {
            return Err(Refusal::of(VALUE_NOT_UTF8));
        }
        if !seen.insert(key) {
            return Err(Refusal::of(KEY_SEEN));
        }
    }
    if total >= PAIRS_LIMIT {
        return Err(Refusal::of(PAIRS_TOO_LONG));
    }
    // An empty context is 00 00, without a count.
    Ok(if pairs.is_empty() { 2 } else { 4 + total })
}

/// Writes tested pairs; answers the place after them.
pub(crate) fn put_section(text: &[u8], pairs: &[u32], out: &mut [u8]) -> usize {
    if pairs.is_empty() {
        return put(out, 0, &[0, 0]);
    }
    let count = (pairs.len() / NUMBERS_A_PAIR) as u16;
    let mut at = put(out, 2, &count.to_be_bytes());
    for place in pairs.chunks_exact(2) {
        at = put_entry(out, at, text_part(text, place));
    }
    put(out, 0, &((at - 2) as u16).to_be_bytes());
    at
}

/// Writes a context section from the output's first byte; answers its length.
/// 26; 27; per pair 10, 11, 12; 13; 28.
pub fn write_aad_section(text: &[u8], pairs: &[u32], out: &mut [u8]) -> Result<u64, Refusal> {
    let length = test_pairs(text, pairs)?;
    if length > out.len() as u64 {
        return Err(Refusal::of(OUTPUT));
    }
    put_section(text, pairs, out);
    Ok(length)
}
