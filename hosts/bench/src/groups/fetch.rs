//! Bodies that are fetched: read again after each fetch of what is wanted,
//! until nothing is. Against the separate implementation in the same loop, and
//! against ours where the whole is there before the first read, which shows
//! what the rounds cost.

use super::bodies::{bodies, headers_h, messages, SIZES};
use crate::answer::{agreed, told};
use crate::table::Table;
use crate::{ours, theirs};
use generator::fields::Fields;
use std::hint::black_box;

/// What a source has at hand at once, whatever is wanted.
const PIECE: usize = 4_096;

pub fn rows(table: &mut Table) {
    both(table, "body fetched, H", 0, &headers_h());
    // Of few keys, and of many: rounds are by keys, and pairs add none.
    let [few, _, _, many] = SIZES;
    for (name, pair_count, key_count) in [few, many] {
        let bodies = bodies(pair_count, key_count);
        both(table, &format!("body fetched, {name}"), 0, &bodies);
    }
    let (name, pair_count, key_count) = many;
    let what = format!("body fetched by 4,096 bytes, {name}");
    both(table, &what, PIECE, &bodies(pair_count, key_count));
}

/// A buffer that holds what was fetched, and the tables.
struct Lent {
    buffer: Vec<u8>,
    pairs: Vec<u32>,
    keys: Vec<u32>,
}

/// From no byte on: up to each position that is wanted, or a whole piece where
/// that is more. A fetch is a copy.
#[inline]
fn fetched(
    source: &[u8],
    piece: usize,
    lent: &mut Lent,
    read: impl Fn(&[u8], &mut [u32], &mut [u32]) -> Result<u64, (u32, u64)>,
) -> u64 {
    let mut held = 0;
    loop {
        let front = black_box(&lent.buffer[..held]);
        match read(front, &mut lent.pairs, &mut lent.keys) {
            Err((2, wanted)) if wanted <= source.len() as u64 => {
                let end = (held + piece).min(source.len()).max(wanted as usize);
                lent.buffer[held..end].copy_from_slice(&source[held..end]);
                held = end;
            }
            answer => return told(answer.map_err(|(number, _)| number)),
        }
    }
}

/// The same copy, all at once and before the first read.
#[inline]
fn at_once(source: &[u8], lent: &mut Lent) -> u64 {
    let front = &mut lent.buffer[..source.len()];
    front.copy_from_slice(source);
    ours::read_body(black_box(front), &mut lent.pairs, &mut lent.keys)
}

fn both(table: &mut Table, what: &str, piece: usize, bodies: &[Fields]) {
    beside(table, (what, "reference"), piece, bodies, |source, lent| {
        fetched(source, piece, lent, theirs::read_front)
    });
    let what = (what, "ours, read once, whole");
    beside(table, what, piece, bodies, at_once);
}

fn beside(
    table: &mut Table,
    (what, against): (&str, &str),
    piece: usize,
    bodies: &[Fields],
    other: impl Fn(&[u8], &mut Lent) -> u64,
) {
    let messages = messages(bodies);
    let message = |call: usize| &black_box(&messages[..])[call % bodies.len()][..];
    let longest = messages.iter().map(Vec::len).max().unwrap_or(0);
    let [mut first, mut second] = [(); 2].map(|_| Lent {
        buffer: vec![0; longest],
        pairs: vec![0; 4 * bodies[0].pairs.len()],
        keys: vec![0; 6 * bodies[0].keys.len()],
    });
    let times = agreed(
        bodies.len(),
        None,
        |call| {
            fetched(
                message(call),
                piece,
                black_box(&mut first),
                ours::read_front,
            )
        },
        |call| other(message(call), black_box(&mut second)),
    );
    assert!((first.pairs, first.keys) == (second.pairs, second.keys));
    table.row(what, against, times);
}
