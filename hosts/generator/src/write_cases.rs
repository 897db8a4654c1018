//! Requests to write a context section or a key section.

use crate::fields;
use crate::image::{self, pairs_length, Form};
use crate::random::Random;
use crate::sections::{duplicate, stretch};
use crate::table_faults::{enlarge, misplace};
use crate::tables::{lend, Lent};
use crate::texts::bad_text;
use crate::{Expected, Key, Pair};

/// A request to write one section: from `lent.pairs` or `lent.keys`.
/// Accepted, it puts `image` at the front of the output.
#[derive(Clone, Debug)]
pub struct WriteCase {
    pub lent: Lent,
    pub out: Vec<u8>,
    pub image: Vec<u8>,
    pub expected: Expected,
}

/// An output of random bytes: exact, longer, a byte short, or none. Answers
/// whether it holds `length`.
pub fn output(random: &mut Random, length: usize) -> (Vec<u8>, bool) {
    let room = match random.below(12) {
        // No output is too short for no bytes.
        0 | 1 if length == 0 => 0,
        0 => length - 1,
        1 => random.index(length),
        2..=6 => length,
        _ => length + 1 + random.index(40),
    };
    (random.bytes(room), room >= length)
}

/// Pairs to write with faults in them: none, or the numbers of those the
/// writer meets, in its order.
pub fn pairs_to_write(random: &mut Random) -> (Vec<Pair>, Option<u32>) {
    let mut pairs = fields::pairs(random, 20);
    let long = random.one_in(300);
    let spoiled = if random.one_in(4) {
        Some(10 + random.below(3) as u32)
    } else {
        None
    };
    let mut number = None;
    if long {
        let total = 65_532 + random.index(4);
        stretch(random, &mut pairs, total);
        number = (total >= 65_534).then_some(13);
    }
    if let (Some(fault), false) = (spoiled, pairs.is_empty()) {
        let at = random.index(pairs.len());
        match fault {
            10 => pairs[at].0 = bad_text(random),
            11 => pairs[at].1 = bad_text(random),
            _ => duplicate(random, &mut pairs),
        }
        // All pairs are looked at before their bytes are counted.
        number = Some(fault);
    }
    debug_assert!(number.is_some() || pairs_length(&pairs) < 65_534);
    (pairs, number)
}

/// Keys to write, and the number of the fault in them, or of having none.
pub fn keys_to_write(random: &mut Random) -> (Vec<Key>, Option<u32>) {
    let mut keys = fields::keys(random, 12);
    match random.below(12) {
        0 => (Vec::new(), Some(38)),
        1 => {
            let at = random.index(keys.len());
            keys[at][0] = bad_text(random);
            (keys, Some(16))
        }
        _ => (keys, None),
    }
}

/// Faults put into a table, with the number the writer meets first.
pub fn spoil_table(
    random: &mut Random,
    table: &mut Vec<u32>,
    numbers: usize,
    text: &mut Vec<u8>,
) -> Option<u32> {
    let mut number = None;
    if random.one_in(60) {
        enlarge(random, table, numbers, text);
        number = Some(27);
    }
    if random.one_in(10) {
        misplace(random, table, numbers, text);
        number = Some(26);
    }
    number
}

/// The request of a seed to write a context section.
pub fn write_section_case(seed: u64) -> WriteCase {
    let mut random = Random::new(seed);
    let random = &mut random;
    let (pairs, fault) = pairs_to_write(random);
    let mut lent = lend(random, &pairs, &[]);
    let table_fault = spoil_table(random, &mut lent.pairs, 4, &mut lent.text);
    let image = image::section(&pairs, Form::Today).bytes;
    finish(random, lent, image, table_fault.or(fault))
}

/// The request of a seed to write a key section.
pub fn write_keys_case(seed: u64) -> WriteCase {
    let mut random = Random::new(seed);
    let random = &mut random;
    let (keys, fault) = keys_to_write(random);
    let mut lent = lend(random, &[], &keys);
    let table_fault = spoil_table(random, &mut lent.keys, 6, &mut lent.text);
    let image = image::keys(&keys).bytes;
    finish(random, lent, image, table_fault.or(fault))
}

fn finish(random: &mut Random, lent: Lent, image: Vec<u8>, fault: Option<u32>) -> WriteCase {
    let (out, fits) = output(random, image.len());
    let expected = match fault {
        Some(number) => Expected::Refused(number, 0),
        None if fits => Expected::Accepted,
        None => Expected::Refused(28, 0),
    };
    WriteCase {
        lent,
        out,
        image,
        expected,
    }
}
