//! One draft that is put together in several ways: lists of pairs joined, a list
//! rearranged, and the keys of two providers dropped in either order.
//!
//! What is wanted is always worked out by concatenation: that two ways agree
//! wouldn't show that either is right.

mod dropped;
mod dropped_generated;
mod joined;
mod joined_long;
mod rearranged;
mod rearranged_generated;

use compare_header::numbers::Answer;
use compare_header::writes;
use generator::arrangements::arranged;
use generator::Pair;

/// Pairs in the order of their keys, of which some begin others and one isn't
/// ASCII. Values are like keys, and one is empty.
const PAIRS: [(&str, &str); 5] = [
    ("", "a"),
    ("a", "v"),
    ("ab", ""),
    ("b", "ab"),
    ("\u{e9}", "\u{e9}x"),
];

/// The pairs with these numbers.
fn pairs_of(numbers: &[usize]) -> Vec<Pair> {
    let pair = |(key, value): (&str, &str)| (key.into(), value.into());
    arranged(&PAIRS.map(pair), numbers)
}

/// The entries of pairs, each part behind its length.
fn entries(pairs: &[Pair]) -> Vec<u8> {
    let parts = pairs.iter().flat_map(|(key, value)| [key, value]);
    let entry = |part: &Vec<u8>| [&(part.len() as u16).to_be_bytes(), &part[..]].concat();
    parts.flat_map(entry).collect()
}

/// A section of pairs; of none it is a length of 0, without a count.
fn section(pairs: &[Pair]) -> Vec<u8> {
    let entries = entries(pairs);
    let numbers = match pairs.len() {
        0 => vec![0],
        count => vec![(2 + entries.len()) as u16, count as u16],
    };
    let front = numbers.into_iter().flat_map(u16::to_be_bytes);
    front.chain(entries).collect()
}

/// What an output holds before it is written to.
const FILL: u8 = 0xEE;

/// The section of a table's pairs, written into an output with room for it and
/// a few bytes more; those stay as they were, and all of them where it is
/// refused.
fn write_section(text: &[u8], table: &[u32]) -> (Answer<usize>, Vec<u8>) {
    let lengths = table.iter().skip(1).step_by(2);
    let room: usize = lengths.map(|&length| 2 + length as usize).sum();
    let (answer, mut out) = writes::write_aad_section(text, table, &vec![FILL; room + 7]);
    let rest = out.split_off(*answer.as_ref().unwrap_or(&0));
    assert!(rest.iter().all(|&byte| byte == FILL), "{answer:?}");
    (answer, out)
}
