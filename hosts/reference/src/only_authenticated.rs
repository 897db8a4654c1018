//! The bytes of tags that are authenticated without being stored: the pairs
//! of a context section whose keys are required.

use crate::context::{walk, Mode, Section};
use crate::leaves::{part, put, put_entry, ENTRY_MAX};
use crate::refusal::*;
use crate::tables::{inside, text_part};
use std::collections::HashSet;

/// A key and its value.
type Tag<'a> = (&'a [u8], &'a [u8]);

/// Refusal 31 of a required table.
fn test_required(text: &[u8], required: &[u32]) -> Result<(), Refusal> {
    let mut places = required.chunks_exact(2);
    if !places.remainder().is_empty() || !places.all(|place| inside(text, place)) {
        return Err(Refusal::of(REQUIRED_PLACES));
    }
    Ok(())
}

/// The keys that a tested table names. Any bytes may be named; those that no
/// entry can store are no pair's key and are left out.
fn required_keys<'a>(text: &'a [u8], required: &[u32]) -> HashSet<&'a [u8]> {
    required
        .chunks_exact(2)
        .filter(|place| u64::from(place[1]) <= ENTRY_MAX)
        .map(|place| text_part(text, place))
        .collect()
}

/// The section's pairs with these keys, sorted by key: byte by byte, a key
/// that begins another before it. Keys differ, so values don't matter.
fn sorted_tags<'a>(message: &'a [u8], section: &Section, keys: &HashSet<&[u8]>) -> Vec<Tag<'a>> {
    let mut tags: Vec<Tag> = section
        .places(message)
        .map(|(key, value)| (part(message, key), part(message, value)))
        .filter(|(key, _)| keys.contains(key))
        .collect();
    tags.sort_unstable_by_key(|(key, _)| *key);
    tags
}

/// What the tags take when written. Without any there is no count either.
fn length_of(tags: &[Tag]) -> u64 {
    if tags.is_empty() {
        return 0;
    }
    let entries = |(key, value): &Tag| 2 + key.len() as u64 + 2 + value.len() as u64;
    2 + tags.iter().map(entries).sum::<u64>()
}

/// Writes the pairs of the section at `start`, read tolerantly, whose keys
/// stand in the text at the required table's places, from the output's first
/// byte: their count, then key and value of each, in the order of keys.
/// Answers the length. The section's but 22; 31; 28.
pub fn write_only_authenticated(
    message: &[u8],
    start: u64,
    text: &[u8],
    required: &[u32],
    out: &mut [u8],
) -> Result<u64, Refusal> {
    test_sizes(message, start)?;
    let section = walk(message, start, Mode::Tolerant)?;
    test_required(text, required)?;
    let keys = required_keys(text, required);
    let tags = sorted_tags(message, &section, &keys);
    let length = length_of(&tags);
    if length > out.len() as u64 {
        return Err(Refusal::of(OUTPUT));
    }
    if !tags.is_empty() {
        let mut at = put(out, 0, &(tags.len() as u16).to_be_bytes());
        for (key, value) in tags {
            at = put_entry(out, at, key);
            at = put_entry(out, at, value);
        }
    }
    Ok(length)
}
