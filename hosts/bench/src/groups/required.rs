//! Pairs that are only authenticated, by how many of a section's are required,
//! against the separate implementation.

use super::context::counted;
use super::lists::lists;
use crate::answer::agreed;
use crate::table::Table;
use crate::{ours, theirs};
use generator::image::{section, Form};
use generator::many::{Order, MOST};
use generator::random::Random;
use generator::tables::lend_parts;
use generator::Pair;
use std::hint::black_box;

/// How many pairs, the lengths of their keys and values, and how many of them
/// are required.
const SIZES: [(usize, (usize, usize), usize); 7] = [
    (1, (10, 16), 1),
    (10, (10, 16), 10),
    (200, (10, 16), 200),
    (2_000, (8, 12), 2_000),
    (MOST, (2, 0), MOST),
    (10, (10, 16), 3),
    (MOST, (2, 0), 1),
];

pub fn rows(table: &mut Table) {
    for (count, lengths, required) in SIZES {
        let how_many = match required == count {
            true => "all".to_string(),
            false => required.to_string(),
        };
        let what = format!(
            "only authenticated, {}, {how_many} required",
            counted(count)
        );
        write(
            table,
            &what,
            &lists(count, lengths, Order::Shuffled),
            required,
        );
    }
}

/// A section, and a text of its own for the required keys.
struct Request {
    message: Vec<u8>,
    text: Vec<u8>,
    required: Vec<u32>,
}

/// Requires so many of the pairs, in another order than the section's.
fn request(random: &mut Random, pairs: &[Pair], required: usize) -> Request {
    let mut keys: Vec<&[u8]> = pairs.iter().map(|(key, _)| &key[..]).collect();
    random.shuffle(&mut keys);
    let (text, required) = lend_parts(random, &keys[..required]);
    Request {
        message: section(pairs, Form::Today).bytes,
        text,
        required,
    }
}

fn write(table: &mut Table, what: &str, lists: &[Vec<Pair>], required: usize) {
    let mut random = Random::new(13);
    let requests: Vec<Request> = lists
        .iter()
        .map(|pairs| request(&mut random, pairs, required))
        .collect();
    let (mut our_out, mut their_out) = (vec![0; 1 << 16], vec![0; 1 << 16]);
    let request = |call: usize| &black_box(&requests[..])[call % lists.len()];
    let times = agreed(
        lists.len(),
        None,
        |call| {
            let Request {
                message,
                text,
                required,
            } = request(call);
            ours::only_authenticated(message, text, required, black_box(&mut our_out))
        },
        |call| {
            let Request {
                message,
                text,
                required,
            } = request(call);
            theirs::only_authenticated(message, text, required, black_box(&mut their_out))
        },
    );
    assert!(our_out == their_out);
    table.row(what, "reference", times);
}
