//! One pair that has two faults: its key was seen before, and its value isn't
//! UTF-8. The value is tested first (11), and the key before both (10).

use compare_header::answers::Answers;
use compare_header::every::{self, USES_OF_PAIRS};
use generator::many::{pairs, ORDERS};
use generator::random::Random;
use generator::texts::{bad_sequence, BAD_KINDS};
use generator::Pair;

/// How many pairs stand before the faulty one.
const BEFORE: [usize; 9] = [1, 2, 7, 8, 9, 16, 33, 130, 1_200];

const GOOD: &[u8] = "w\u{e9}".as_bytes();

/// Every operation, and finds of the first key, of the faulty pair's and of
/// none.
fn agree(random: &mut Random, answers: &mut Answers, pairs: &[Pair], wanted: u32) {
    every::pairs(random, answers, pairs, wanted);
    for key in [&pairs[0].0[..], &pairs[pairs.len() - 1].0, b"none"] {
        every::find(answers, pairs, key, wanted);
    }
}

#[test]
fn in_every_operation() {
    let mut random = Random::new(121);
    let mut answers = Answers::default();
    for before in BEFORE {
        for (order, kind) in ORDERS
            .into_iter()
            .flat_map(|order| BAD_KINDS.map(|kind| (order, kind)))
        {
            let mut pairs = pairs(&mut random, before, (3, 1), order);
            let bad = bad_sequence(&mut random, kind);
            let again = [0, before / 2, before - 1][random.index(3)];
            let seen = pairs[again].0.clone();
            for (key, value, number) in [
                (&seen, &bad[..], 11),
                (&seen, GOOD, 12),
                (&bad, &bad[..], 10),
            ] {
                pairs.push((key.clone(), value.to_vec()));
                agree(&mut random, &mut answers, &pairs, number);
                pairs.pop();
            }
        }
    }
    let each = (BEFORE.len() * ORDERS.len() * BAD_KINDS.len()) as u64 * (USES_OF_PAIRS + 3);
    let wanted = [(10, each), (11, each), (12, each)];
    answers.assert_are("pairs with a key seen before and a bad value", &wanted);
}

/// The fault stands in the middle: what comes behind isn't looked at.
#[test]
fn with_pairs_behind() {
    let mut random = Random::new(122);
    let mut answers = Answers::default();
    for before in BEFORE {
        let mut pairs = pairs(&mut random, before + 3, (2, 0), ORDERS[2]);
        pairs.insert(before, (pairs[0].0.clone(), vec![b'v', 0xFF]));
        agree(&mut random, &mut answers, &pairs, 11);
        // A later pair with another fault of its own.
        pairs[before + 2].0 = vec![0xC0];
        agree(&mut random, &mut answers, &pairs, 11);
        // An earlier one.
        pairs[before - 1].1 = vec![0xC0];
        pairs[before].1 = Vec::new();
        agree(&mut random, &mut answers, &pairs, 11);
    }
    let each = BEFORE.len() as u64 * (USES_OF_PAIRS + 3);
    answers.assert_are("such pairs with others behind", &[(11, 3 * each)]);
}
