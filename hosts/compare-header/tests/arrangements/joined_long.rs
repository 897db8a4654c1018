//! Joined lists about as long as a section can be, which has at most 65,533
//! bytes of pairs: each list may have room where both have none.

use crate::joined::join;
use compare_header::answers::Answers;
use generator::image::pairs_length;
use generator::many::{pairs, MOST, ORDERS};
use generator::random::Random;
use generator::sections::stretch;
use generator::Pair;

/// What a list of this length is refused by.
fn alone(pairs: &[Pair]) -> u32 {
    match pairs_length(pairs) {
        0..=65_533 => 0,
        _ => 13,
    }
}

/// The three numbers of a join, split before the first pair, behind it, in the
/// middle, before the last and behind it.
fn at_each(random: &mut Random, answers: &mut Answers, pairs: &[Pair]) -> [[u32; 3]; 5] {
    let last = pairs.len() - 1;
    [0, 1, pairs.len() / 2, last, last + 1].map(|at| {
        let (first, second) = pairs.split_at(at);
        let wanted = [first, second, pairs].map(alone);
        join(random, answers, [first, second], wanted);
        wanted
    })
}

/// Few pairs and as many as there can be, in every order of their keys, with
/// one by which they take just so many bytes.
#[test]
fn together() {
    let mut random = Random::new(311);
    let mut answers = Answers::default();
    let mut told = Vec::new();
    for total in [65_532, 65_533, 65_534, 65_535] {
        for order in ORDERS {
            for (count, lengths) in [(1, (3, 0)), (6, (9, 40)), (300, (2, 100)), (MOST, (2, 0))] {
                let mut pairs = pairs(&mut random, count, lengths, order);
                stretch(&mut random, &mut pairs, total);
                assert_eq!(pairs_length(&pairs), total);
                told.extend(at_each(&mut random, &mut answers, &pairs));
            }
        }
    }
    // Half of the lists are too long, each of which has all of its pairs in one
    // list twice.
    let lists = 2 * 3 * 4;
    let met = |wanted| told.iter().filter(|told| **told == wanted).count();
    assert_eq!(met([0, 0, 13]), lists * 3);
    assert_eq!((met([0, 13, 13]), met([13, 0, 13])), (lists, lists));
    let refused = lists as u64 * (3 + 2 * 2);
    let wanted = [(0, 2 * 3 * 5 * lists as u64 - refused), (13, refused)];
    answers.assert_are("joined lists of about 65,533 bytes", &wanted);
}

/// Just as long as a section can be, one byte more, and then also a key of the
/// first list in the second, of which is told first.
#[test]
fn of_one_pair_each() {
    let mut random = Random::new(312);
    let mut answers = Answers::default();
    for length in [0, 1, 255, 256, 32_766, 65_523] {
        let first: Vec<Pair> = vec![(b"a".to_vec(), vec![b'v'; length])];
        for (more, key, number) in [(0, "b", 0), (1, "b", 13), (0, "a", 12), (1, "a", 12)] {
            let rest = 65_533 - (4 + 1 + length) - (4 + 1) + more;
            let second: Vec<Pair> = vec![(key.into(), vec![b'w'; rest])];
            join(&mut random, &mut answers, [&first, &second], [0, 0, number]);
        }
    }
    let wanted = [(0, 6 * (4 * 2 + 1)), (12, 6 * 2), (13, 6)];
    answers.assert_are("joined lists of one pair each", &wanted);
}
