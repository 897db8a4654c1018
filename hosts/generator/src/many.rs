//! Contexts of many pairs, in the orders that a search of earlier keys may
//! find easy or hard.

use crate::random::Random;
use crate::Pair;

/// How the keys of a context follow one another.
#[derive(Clone, Copy, Debug, PartialEq, Eq)]
pub enum Order {
    Ascending,
    Descending,
    Shuffled,
}

pub const ORDERS: [Order; 3] = [Order::Ascending, Order::Descending, Order::Shuffled];

/// The most pairs of two-byte keys and empty values a section holds is
/// 10,922; 10,900 leave room for one more.
pub const MOST: usize = 10_900;

/// The key of a number: its last digits to the base 128, each an ASCII byte,
/// so that keys of one length are ordered as their numbers are.
fn key(number: usize, length: usize) -> Vec<u8> {
    let digit = |place: usize| match 7 * place {
        shift @ 0..=56 => (number >> shift & 0x7F) as u8,
        _ => b'k',
    };
    (0..length).rev().map(digit).collect()
}

/// `count` pairs whose keys and values have these lengths.
pub fn pairs(
    random: &mut Random,
    count: usize,
    (key_length, value_length): (usize, usize),
    order: Order,
) -> Vec<Pair> {
    let mut numbers: Vec<usize> = (0..count).collect();
    match order {
        Order::Ascending => {}
        Order::Descending => numbers.reverse(),
        Order::Shuffled => random.shuffle(&mut numbers),
    }
    numbers
        .into_iter()
        .map(|number| (key(number, key_length), vec![b'v'; value_length]))
        .collect()
}
