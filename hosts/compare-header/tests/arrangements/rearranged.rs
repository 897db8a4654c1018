//! A list of pairs rearranged: it is accepted where the first is, its section
//! and a body with it are as long, and but for the entries they are the same;
//! for the same required keys the same bytes are only authenticated.

use crate::{entries, pairs_of, section, write_section, FILL};
use bafirolen::Draft;
use compare_header::answers::Answers;
use compare_header::numbers::numbers;
use compare_header::{lengths, writes};
use generator::arrangements::{arranged, choices, orders};
use generator::fields::{front, Fields};
use generator::large::plain;
use generator::random::Random;
use generator::tables::{lend, lend_parts, Lent};
use generator::{Key, Pair};

/// How many answers `rearrange` counts.
pub const ANSWERS: u64 = 3;

/// The fields with pairs and keys from tables.
fn drafted<'a>(fields: &'a Fields, lent: &'a Lent) -> Draft<'a> {
    Draft::new(numbers(&fields.numbers().into()), &fields.id)
        .with_suite_data(&fields.suite_data)
        .with_tables(&lent.text, &lent.pairs, &lent.keys)
}

/// The fields with their pairs rearranged, of which the section is written, and
/// the body measured and written; each answers this number.
pub fn rearrange(
    random: &mut Random,
    answers: &mut Answers,
    (fields, pairs): (&Fields, &[Pair]),
    number: u32,
) {
    let lent = lend(random, pairs, &fields.keys);
    let draft = drafted(fields, &lent);
    let mut body = fields.image().bytes;
    let room = vec![FILL; body.len() + 3];
    let (short, section_out) = write_section(&lent.text, &lent.pairs);
    let length = lengths::header_body_len(&draft);
    let (long, out) = writes::write_header_body(draft, &room);
    for answer in [&short, &length, &long] {
        answers.met(answer, number);
    }
    if number > 0 {
        assert!(out == room, "{number}: the output");
        return;
    }
    let first = section(&fields.pairs);
    let lengths = first.len().min(4);
    assert_eq!(short, Ok(first.len()), "as long");
    assert!(section_out[..lengths] == first[..lengths], "both lengths");
    assert!(section_out == section(pairs), "the section");
    assert_eq!([length, long], [Ok(body.len()); 2], "as long a body");
    // All else of the first body stays, so that the entries end where its do.
    let start = front(fields).bytes.len() + 4;
    body.splice(start..start + entries(&fields.pairs).len(), entries(pairs));
    body.extend([FILL; 3]);
    assert!(out == body, "the body but for its entries");
}

/// What is only authenticated of a section in a message, for these keys, is
/// what is wanted.
pub fn only(
    random: &mut Random,
    answers: &mut Answers,
    (message, start): (&[u8], usize),
    keys: &[&[u8]],
    wanted: &[u8],
) {
    let (text, table) = lend_parts(random, keys);
    let room = vec![FILL; wanted.len() + 2];
    let (answer, out) =
        writes::write_only_authenticated(message, start as u64, &text, &table, &room);
    answers.met(&answer, 0);
    assert_eq!(answer, Ok(wanted.len()));
    assert!(out == [wanted, &[FILL; 2]].concat(), "{keys:02X?}");
}

/// A body of a version with the five pairs, and a key.
fn sample(version: u32) -> Fields {
    let mut fields = plain(version);
    fields.pairs = pairs_of(&[0, 1, 2, 3, 4]);
    let key: Key = [b"p".to_vec(), Vec::new(), b"ab".to_vec()];
    fields.keys = vec![key];
    fields
}

#[test]
fn every_order() {
    let mut random = Random::new(321);
    let mut answers = Answers::default();
    for order in orders(5) {
        for version in [1, 2] {
            let pairs = pairs_of(&order);
            rearrange(&mut random, &mut answers, (&sample(version), &pairs), 0);
        }
    }
    let wanted = [(0, 120 * 2 * ANSWERS)];
    answers.assert_are("bodies of five pairs in every order", &wanted);
}

/// The five pairs in every order, and any of their keys required in every order:
/// once, and then all of them again the other way about, with some that no pair
/// has.
#[test]
fn every_order_required() {
    let mut random = Random::new(322);
    let mut answers = Answers::default();
    let sections: Vec<Vec<u8>> = orders(5)
        .iter()
        .map(|order| {
            let lent = lend(&mut random, &pairs_of(order), &[]);
            write_section(&lent.text, &lent.pairs).1
        })
        .collect();
    for choice in choices(5, 5) {
        // The five are numbered in the order of their keys.
        let mut sorted = choice.clone();
        sorted.sort_unstable();
        let wanted = match sorted.len() {
            0 => Vec::new(),
            count => [vec![0, count as u8], entries(&pairs_of(&sorted))].concat(),
        };
        let pairs = pairs_of(&choice);
        let once: Vec<&[u8]> = pairs.iter().map(|pair| &pair.0[..]).collect();
        let mut again: Vec<&[u8]> = once.iter().rev().copied().collect();
        again.extend([&b"abc"[..], b"\xFF"]);
        let again = [&once[..], &again].concat();
        for section in &sections {
            only(&mut random, &mut answers, (section, 0), &once, &wanted);
            only(&mut random, &mut answers, (section, 0), &again, &wanted);
        }
    }
    let wanted = [(0, 326 * 120 * 2)];
    answers.assert_are("keys of five pairs required in every order", &wanted);
}

/// A list that is refused is so in every order, if it has one fault.
#[test]
fn every_order_refused() {
    let mut random = Random::new(323);
    let mut answers = Answers::default();
    let faults: [(u32, Pair); 4] = [
        (10, (b"\xC3".to_vec(), b"v".to_vec())),
        (11, (b"z".to_vec(), b"\xA9".to_vec())),
        (12, (b"ab".to_vec(), b"other".to_vec())),
        (12, (b"".to_vec(), b"a".to_vec())),
    ];
    for (number, pair) in faults {
        for version in [1, 2] {
            let mut fields = sample(version);
            fields.pairs[3] = pair.clone();
            for order in orders(5) {
                let pairs = arranged(&fields.pairs, &order);
                rearrange(&mut random, &mut answers, (&fields, &pairs), number);
            }
        }
    }
    let each = 120 * 2 * ANSWERS;
    let wanted = [(10, each), (11, each), (12, 2 * each)];
    answers.assert_are("five pairs refused in every order", &wanted);
}
