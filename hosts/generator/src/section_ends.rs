//! Context sections in which a part ends a byte before the section's end, at
//! it, or a byte past it: each part in turn, of the first pair and of a later
//! one. Nothing else is wrong with them, and every byte is ASCII, so that ends
//! alone decide.

use crate::image::{section_with, Image};
use crate::Pair;

/// A section, what stands behind it, and what reading it answers.
#[derive(Clone, Debug)]
pub struct Ended {
    /// The section from its length on, and the bytes of parts that would end
    /// past it.
    pub bytes: Vec<u8>,
    /// Where the section ends; a byte behind the last of `bytes`, if its pairs
    /// end early.
    pub end: usize,
    /// The pairs that it holds where it is accepted.
    pub pairs: Vec<Pair>,
    /// The refusal, 0 where it is accepted.
    pub wanted: u32,
}

/// A section's length, its whole and its count are read before its pairs.
const COUNT: usize = 2;

/// Pairs of letters: key and value of each length, none of which is equal.
fn pairs(lengths: &[(usize, usize)]) -> Vec<Pair> {
    let pair = |(at, &(key, value)): (usize, &(usize, usize))| {
        (vec![b'a' + at as u8; key], vec![b'v'; value])
    };
    lengths.iter().enumerate().map(pair).collect()
}

fn lists() -> [Vec<Pair>; 6] {
    [
        pairs(&[(4, 2)]),
        pairs(&[(3, 2), (4, 5)]),
        pairs(&[(1, 1), (1, 1), (2, 1)]),
        pairs(&[(0, 0)]),
        pairs(&[(0, 3), (2, 0)]),
        pairs(&[(2, 0), (0, 0), (1, 3)]),
    ]
}

/// By where the parts end, the count first, and where the section does. A
/// count is there, so that a section of length 2 is refused for it.
fn wanted(ends: &[u64], end: u64) -> u32 {
    let last = ends[ends.len() - 1];
    match end {
        _ if ends[0] > end => 32,
        _ if ends[0] == end => 8,
        _ if last > end => 32,
        _ if last < end => 14,
        _ => 0,
    }
}

/// The stored length of the section is moved about each part's end.
fn sections_moved(pairs: &[Pair], all: &mut Vec<Ended>) {
    let count = pairs.len() as u16;
    let stops = section_with(pairs, 0, count).stops;
    let ends = &stops[COUNT..];
    for end in ends.iter().flat_map(|&end| [end - 1, end, end + 1]) {
        all.push(Ended {
            bytes: section_with(pairs, end as u16 - 2, count).bytes,
            end: end as usize,
            pairs: pairs.to_vec(),
            wanted: wanted(ends, end),
        });
    }
}

/// The stored length of each entry is moved, so that its bytes end about the
/// section's end. The count is that of all pairs, or ends with this one.
fn entries_moved(pairs: &[Pair], all: &mut Vec<Ended>) {
    let Image { bytes, stops } = section_with(pairs, 0, pairs.len() as u16);
    let end = bytes.len();
    for entry in 0..2 * pairs.len() {
        let (pair, is_value) = (entry / 2, entry % 2 == 1);
        let starts = stops[COUNT + 1 + 2 * entry] as usize;
        for (count, ends) in [pair + 1, pairs.len()]
            .into_iter()
            .flat_map(|count| [end - 1, end, end + 1].map(|ends| (count, ends)))
        {
            let Some(length) = ends.checked_sub(starts) else {
                continue;
            };
            let mut moved = bytes.clone();
            moved[..2].copy_from_slice(&(end as u16 - 2).to_be_bytes());
            moved[2..4].copy_from_slice(&(count as u16).to_be_bytes());
            moved[starts - 2..starts].copy_from_slice(&(length as u16).to_be_bytes());
            // Only a value can be the last part.
            let is_last = is_value && count == pair + 1;
            let wanted = match ends {
                _ if ends > end || !is_last => 32,
                _ if ends < end => 14,
                _ => 0,
            };
            let mut held = pairs[..=pair].to_vec();
            held[pair].1 = bytes[starts..ends.min(end)].to_vec();
            all.push(Ended {
                bytes: moved,
                end,
                pairs: held,
                wanted,
            });
        }
    }
}

/// All of them.
pub fn sections() -> Vec<Ended> {
    let mut all = Vec::new();
    for pairs in lists() {
        sections_moved(&pairs, &mut all);
        entries_moved(&pairs, &mut all);
    }
    all
}
