//! Lists of pairs of one shape, to be taken in rotation.

use generator::many::{pairs, Order};
use generator::random::Random;
use generator::Pair;

/// The requests of a row: a message measured again and again would be known
/// to the branch predictor, as none is in use. An odd number, so that where a
/// round is one call, each request goes first and second by turns, and lies
/// under each depth of the stack.
pub const ROTATION: usize = 11;

/// More of them the smaller they are, since a predictor knows a few short ones
/// as well; never fewer.
pub fn rotation(count: usize) -> usize {
    (2_000 / count.max(1)).clamp(ROTATION, 128)
}

/// Lists of `count` pairs whose keys and values have these lengths, the keys
/// in this order.
pub fn lists(count: usize, lengths: (usize, usize), order: Order) -> Vec<Vec<Pair>> {
    varied(rotation(count), |random| {
        pairs(random, count, lengths, order)
    })
}

/// Lists that differ in every key, and in the bytes and lengths of values.
pub fn varied(copies: usize, list: impl Fn(&mut Random) -> Vec<Pair>) -> Vec<Vec<Pair>> {
    let mut random = Random::new(5);
    (0..copies)
        .map(|copy| {
            let mut pairs = list(&mut random);
            for (key, value) in &mut pairs {
                advance(key, 500 * (copy % ROTATION) + copy / ROTATION);
                value.fill(b'a' + (copy % 26) as u8);
                let cut = random.index(value.len().min(12) + 1);
                value.truncate(value.len() - cut);
            }
            pairs
        })
        .collect()
}

/// The key of a number that much greater: its bytes are digits to the base
/// 128, so the order of keys stays.
fn advance(key: &mut [u8], by: usize) {
    let mut carried = by;
    for digit in key.iter_mut().rev() {
        carried += usize::from(*digit);
        *digit = (carried & 0x7F) as u8;
        carried >>= 7;
    }
}

#[cfg(test)]
mod tests {
    use super::*;
    use std::collections::HashSet;

    /// Ten lists at least, no two the same, keys still in order and apart.
    #[test]
    fn ten_of_a_shape() {
        for (count, lengths) in [(1, (10, 16)), (200, (10, 16)), (10_900, (2, 0))] {
            let ascending = lists(count, lengths, Order::Ascending);
            assert!(ascending.len() >= ROTATION);
            assert_eq!(
                ascending.iter().collect::<HashSet<_>>().len(),
                ascending.len()
            );
            for list in &ascending {
                assert_eq!(list.len(), count);
                assert!(list.windows(2).all(|two| two[0].0 < two[1].0));
            }
            for list in lists(count, lengths, Order::Descending) {
                assert!(list.windows(2).all(|two| two[0].0 > two[1].0));
            }
        }
    }
}
