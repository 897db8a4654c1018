//! Keys that agree in a long front and differ behind it, in every operation
//! that holds keys against one another.

use compare_header::answers::Answers;
use compare_header::every::{self, USES_OF_PAIRS};
use generator::large::agreeing;
use generator::random::Random;
use generator::Pair;

/// In how many bytes the keys agree: around each power of two that a
/// comparison may go by, and around 200.
const FRONTS: [usize; 31] = [
    0, 1, 3, 4, 7, 8, 9, 15, 16, 17, 31, 32, 33, 63, 64, 65, 127, 128, 129, 199, 200, 201, 255,
    256, 257, 511, 512, 1_000, 1_024, 4_096, 10_000,
];

/// Of the contexts of each front and size, three take too many bytes.
const CONTEXTS: u64 = (FRONTS.len() * SIZES.len()) as u64 - 3;

/// How many pairs, and in how many digits their keys differ.
const SIZES: [(usize, usize); 4] = [(2, 1), (5, 3), (12, 9), (60, 2)];

fn sizes(front: usize) -> impl Iterator<Item = (usize, usize)> {
    // All pairs take fewer than 65,534 bytes.
    SIZES
        .into_iter()
        .filter(move |(count, digits)| count * (front + digits + 8) < 65_534)
}

/// Every key is found; one that differs in its last byte, the front alone and
/// a key with one more byte are not.
fn find_each(answers: &mut Answers, pairs: &[Pair], front: usize) -> u64 {
    for (key, _) in pairs {
        every::find(answers, pairs, key, 0);
    }
    let mut other = pairs[0].0.clone();
    *other.last_mut().expect("a digit") = b'x';
    every::find(answers, pairs, &other, 29);
    every::find(answers, pairs, &pairs[0].0[..front], 29);
    other = pairs[0].0.clone();
    other.push(b'0');
    every::find(answers, pairs, &other, 29);
    pairs.len() as u64
}

#[test]
fn differing_behind_the_front() {
    let mut random = Random::new(131);
    let mut answers = Answers::default();
    let (mut requests, mut found) = (0, 0);
    for front in FRONTS {
        for (count, digits) in sizes(front) {
            let mut pairs = agreeing(front, digits, count);
            random.shuffle(&mut pairs);
            every::pairs(&mut random, &mut answers, &pairs, 0);
            found += find_each(&mut answers, &pairs, front);
            requests += 1;
        }
    }
    let wanted = [(0, USES_OF_PAIRS * requests + found), (29, 3 * requests)];
    assert_eq!(requests, CONTEXTS);
    answers.assert_are("uses of keys that agree in a front", &wanted);
}

/// The first, the last and one between a second time.
#[test]
fn repeated() {
    let mut random = Random::new(132);
    let mut answers = Answers::default();
    let mut requests = 0;
    for front in FRONTS {
        for (count, digits) in sizes(front) {
            for again in [0, (count - 1) / 2, count - 2] {
                let mut pairs = agreeing(front, digits, count - 1);
                let key = pairs[again].0.clone();
                pairs.push((key.clone(), Vec::new()));
                every::pairs(&mut random, &mut answers, &pairs, 12);
                every::find(&mut answers, &pairs, &key, 12);
                requests += 1;
            }
        }
    }
    assert_eq!(requests, 3 * CONTEXTS);
    let wanted = [(12, (USES_OF_PAIRS + 1) * requests)];
    answers.assert_are("uses of such keys with one repeated", &wanted);
}

/// The one byte that differs is the front's: each place of keys of 300 bytes.
#[test]
fn differing_in_one_byte() {
    const LENGTH: usize = 300;
    let mut random = Random::new(133);
    let mut answers = Answers::default();
    for at in 0..LENGTH {
        let mut pairs = agreeing(LENGTH - 1, 1, 1);
        let mut key = pairs[0].0.clone();
        key[at] = b'~';
        pairs.insert(random.index(2), (key.clone(), b"other".to_vec()));
        every::pairs(&mut random, &mut answers, &pairs, 0);
        every::find(&mut answers, &pairs, &key, 0);
        key[at] = b'}';
        every::find(&mut answers, &pairs, &key, 29);
    }
    let requests = LENGTH as u64;
    let wanted = [(0, (USES_OF_PAIRS + 1) * requests), (29, requests)];
    answers.assert_are("uses of keys that differ in one byte", &wanted);
}
