//! Pairs that are only authenticated, by the thousand, and tables of required
//! keys up to a million.

use compare_header::answers::Answers;
use compare_header::every::{required, section_of};
use compare_header::writes;
use generator::image::only_authenticated;
use generator::many::{pairs, MOST, ORDERS};
use generator::random::Random;
use generator::Pair;

/// As many pairs as a section takes; all, some and one of them required, once
/// and twice, among keys that no pair has.
#[test]
fn of_many_pairs() {
    let mut random = Random::new(182);
    let mut answers = Answers::default();
    for order in ORDERS {
        let pairs = pairs(&mut random, MOST, (2, 0), order);
        for (step, times) in [(1, 1), (1, 2), (2, 1), (3, 2), (MOST, 1), (MOST, 3)] {
            let first = random.index(step);
            let some = pairs.iter().skip(first).step_by(step);
            let mut keys: Vec<&[u8]> = some.map(|pair| &pair.0[..]).collect();
            keys = keys.repeat(times);
            keys.extend([&b"none"[..], b"\xFF\xFF", b"k"]);
            random.shuffle(&mut keys);
            answers.met(&required(&mut random, &pairs, &keys), 0);
        }
    }
    let wanted = [(0, 3 * 6)];
    answers.assert_are("choices of 10,900 pairs", &wanted);
}

/// The digits of a million numbers, which are required, and the pairs of some.
fn million() -> (Vec<u8>, Vec<u32>) {
    let digits = |number: u32| format!("{number:06}").into_bytes();
    let text = (0..1_000_000).flat_map(digits).collect();
    let table = (0..1_000_000).flat_map(|number| [6 * number, 6]).collect();
    (text, table)
}

/// A million required keys: pairs with the first, the last or one between, with
/// none, and with several; then a fault behind all of them.
#[test]
fn of_a_million_required() {
    let (text, mut table) = million();
    let rows: [&[&str]; 6] = [
        &["000000"],
        &["999999"],
        &["499999"],
        &["none", "0", "0000000"],
        &[
            "700000", "", "00000", "000001", "1000000", "999998", "300000",
        ],
        &[],
    ];
    let mut answers = Answers::default();
    for keys in rows {
        let pair = |key: &&str| (key.as_bytes().to_vec(), b"value".to_vec());
        let pairs: Vec<Pair> = keys.iter().map(pair).collect();
        let section = section_of(&pairs).bytes;
        let required = keys.iter().filter(|key| key.len() == 6);
        let image = only_authenticated(&pairs, required.map(|key| key.as_bytes()));
        let write = |table: &[u32], room: usize| {
            writes::write_only_authenticated(&section, 0, &text, table, &vec![0x11; room])
        };
        let (answer, out) = write(&table, image.len());
        answers.met(&answer, 0);
        assert!(out == image, "{keys:?}");
        if !image.is_empty() {
            answers.met(&write(&table, image.len() - 1).0, 28);
        }
        table.push(6_000_000);
        answers.met(&write(&table, 0).0, 31);
        table.push(1);
        answers.met(&write(&table, 0).0, 31);
        table.truncate(2_000_000);
    }
    let wanted = [(0, 6), (28, 4), (31, 12)];
    answers.assert_are("sections with a million required keys", &wanted);
}

/// One key a million times, and as many pairs as a section takes with a million
/// required keys, of which each pair has one.
#[test]
fn of_a_million_required_again() {
    let (text, table) = million();
    let mut random = Random::new(183);
    let mut numbers: Vec<u32> = (0..1_000_000).collect();
    random.shuffle(&mut numbers);
    let digits = |number: &u32| (format!("{number:06}").into_bytes(), Vec::new());
    let pairs: Vec<Pair> = numbers[..6_500].iter().map(digits).collect();
    let section = section_of(&pairs).bytes;
    let all = only_authenticated(&pairs, pairs.iter().map(|pair| &pair.0[..]));
    let one = only_authenticated(&pairs, [&pairs[9].0[..]]);
    let again = [6 * numbers[9], 6].repeat(1_000_000);
    let mut answers = Answers::default();
    for (table, image) in [(&table, &all), (&again, &one)] {
        let out = vec![0x11; image.len() + 3];
        let (answer, out) = writes::write_only_authenticated(&section, 0, &text, table, &out);
        answers.met(&answer, 0);
        assert!(out.starts_with(image));
    }
    answers.assert_are("a million required keys, again", &[(0, 2)]);
}
