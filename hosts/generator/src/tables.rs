//! Pairs and keys lent to a writer: one text, and tables of places in it.

use crate::random::Random;
use crate::{Key, Pair};

/// A text and the tables whose places lie in it.
#[derive(Clone, Debug, Default)]
pub struct Lent {
    pub text: Vec<u8>,
    pub pairs: Vec<u32>,
    pub keys: Vec<u32>,
}

/// How parts are laid out in the text.
#[derive(Clone, Copy, PartialEq, Eq)]
enum Layout {
    Packed,
    Gaps,
    /// A part that stands in the text already is not put there again, so
    /// places may be shared or overlap.
    Shared,
}

/// Lays out pairs and keys.
pub fn lend(random: &mut Random, pairs: &[Pair], keys: &[Key]) -> Lent {
    let parts: Vec<&[u8]> = pairs
        .iter()
        .flat_map(|(key, value)| [key.as_slice(), value.as_slice()])
        .chain(keys.iter().flatten().map(|part| part.as_slice()))
        .collect();
    let (text, numbers) = lend_parts(random, &parts);
    let split = 4 * pairs.len();
    Lent {
        text,
        pairs: numbers[..split].to_vec(),
        keys: numbers[split..].to_vec(),
    }
}

/// Parts one behind the other, and a table with the place of each.
pub fn places_behind(parts: &[&[u8]]) -> (Vec<u8>, Vec<u32>) {
    let mut table = Vec::with_capacity(2 * parts.len());
    let mut at = 0;
    for part in parts {
        table.extend([at, part.len() as u32]);
        at += part.len() as u32;
    }
    (parts.concat(), table)
}

/// Lays out parts, in order or from the back: the text, and a table with the
/// place of each.
pub fn lend_parts(random: &mut Random, parts: &[&[u8]]) -> (Vec<u8>, Vec<u32>) {
    let layout = random.pick(&[Layout::Packed, Layout::Gaps, Layout::Shared]);
    let mut places = vec![(0u32, 0u32); parts.len()];
    let mut order: Vec<usize> = (0..parts.len()).collect();
    if random.one_in(3) {
        order.reverse();
    }
    let mut text = Vec::new();
    for i in order {
        places[i] = (
            put(random, &mut text, parts[i], layout),
            parts[i].len() as u32,
        );
    }
    if random.one_in(3) {
        let rest = random.length(20);
        text.extend(random.bytes(rest));
    }
    let numbers = places
        .iter()
        .flat_map(|&(start, length)| [start, length])
        .collect();
    (text, numbers)
}

fn put(random: &mut Random, text: &mut Vec<u8>, part: &[u8], layout: Layout) -> u32 {
    if part.is_empty() && layout != Layout::Packed {
        return random.index(text.len() + 1) as u32;
    }
    if layout == Layout::Shared && !part.is_empty() && text.len() < 4096 {
        if let Some(at) = text.windows(part.len()).position(|window| window == part) {
            return at as u32;
        }
    }
    if layout == Layout::Gaps {
        let gap = random.index(4);
        text.extend(random.bytes(gap));
    }
    text.extend_from_slice(part);
    (text.len() - part.len()) as u32
}
