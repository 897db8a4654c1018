//! Finds of keys longer than any pair's. One whose length agrees with that of
//! a pair's key in 16 or 32 bits, and whose front is that key, is not it.

use compare_header::answers::Answers;
use compare_header::every;
use compare_header::reads;
use generator::large::zeros;
use generator::random::Random;
use generator::Pair;

/// The longest key that a section takes, with an empty value.
const LONGEST_KEY: usize = 65_533 - 4;

/// Pairs whose keys are letters of these lengths.
fn pairs(lengths: &[usize]) -> Vec<Pair> {
    let pair = |&length: &usize| (vec![b'k'; length], format!("v{length}").into_bytes());
    lengths.iter().map(pair).collect()
}

#[test]
fn lengths_that_agree_in_16_bits() {
    let lengths = [0, 1, 5, 255, 256, 1_000, 30_000];
    let pairs = pairs(&lengths);
    let mut answers = Answers::default();
    for length in lengths {
        let key = vec![b'k'; length];
        every::find(&mut answers, &pairs, &key, 0);
        for times in [1, 2, 16] {
            let long = vec![b'k'; length + times * 65_536];
            every::find(&mut answers, &pairs, &long, 29);
        }
    }
    for length in [65_530, 65_534, 65_535, 65_536, 65_537, 100_000, 1 << 20] {
        every::find(&mut answers, &pairs, &vec![b'k'; length], 29);
    }
    let found = lengths.len() as u64;
    answers.assert_are("finds of long keys", &[(0, found), (29, 3 * found + 7)]);
}

/// Bytes are held against one another only where lengths are equal, so none of
/// the long keys are looked at.
#[test]
fn lengths_that_agree_in_32_bits() {
    let mut answers = Answers::default();
    let lengths = [0, 1, 5, 300];
    let pairs: Vec<Pair> = lengths
        .map(|length| (vec![0; length], format!("v{length}").into_bytes()))
        .to_vec();
    let zeros = zeros((1 << 32) + 300);
    for length in lengths {
        every::find(&mut answers, &pairs, &zeros[..length], 0);
        every::find(&mut answers, &pairs, &zeros[..(1 << 32) + length], 29);
    }
    answers.assert_are("finds of keys above 4 GiB", &[(0, 4), (29, 4)]);
}

/// Just the longest key, and those a byte or more away from it; a longer one
/// goes past any section.
#[test]
fn the_longest_key() {
    let mut answers = Answers::default();
    for length in [LONGEST_KEY - 1, LONGEST_KEY] {
        let pairs = [(vec![b'k'; length], Vec::new())];
        every::find(&mut answers, &pairs, &vec![b'k'; length], 0);
        for other in [0, length - 1, length + 1, 65_534, 65_535, length + 65_536] {
            every::find(&mut answers, &pairs, &vec![b'k'; other], 29);
        }
        let mut last = vec![b'k'; length];
        last[length - 1] = b'l';
        every::find(&mut answers, &pairs, &last, 29);
    }
    for length in [LONGEST_KEY + 1, 65_534, 65_535] {
        let pairs = [(vec![b'k'; length], Vec::new())];
        every::find(&mut answers, &pairs, &vec![b'k'; length], 32);
        every::find(&mut answers, &pairs, b"k", 32);
    }
    let wanted = [(0, 2), (29, 14), (32, 6)];
    answers.assert_are("finds around the longest key", &wanted);
}

/// Any bytes may be asked for, also such as no key holds.
#[test]
fn any_bytes() {
    let mut random = Random::new(141);
    let mut answers = Answers::default();
    let pairs = pairs(&[0, 3, 40]);
    for length in [1, 2, 3, 39, 40, 41, 255, 256, 65_535, 65_536, 65_539] {
        let mut key = random.bytes(length);
        key[length - 1] = 0xFF;
        every::find(&mut answers, &pairs, &key, 29);
        // Where the section is refused, the key doesn't matter.
        answers.short(&reads::find_value(&[0, 9, 0], 0, &key), 11);
        answers.met(&reads::find_value(&[0, 2, 0, 1], 0, &key), 8);
    }
    answers.assert_are("finds of any bytes", &[(2, 11), (8, 11), (29, 11)]);
}
