//! Requests to write a header body.

use crate::body_cases::{byte_but, unknown_suite};
use crate::fields::{fields, frame_length, suite_of, Fields};
use crate::image::OLD_MARKS;
use crate::random::Random;
use crate::rows;
use crate::tables::{lend, Lent};
use crate::write_cases::{keys_to_write, output, pairs_to_write, spoil_table};
use crate::{Expected, Pair};

/// A request. Accepted, it puts `image` at the front of the output.
#[derive(Clone, Debug)]
pub struct BodyWriteCase {
    pub fields: Fields,
    pub lent: Lent,
    pub out: Vec<u8>,
    pub image: Vec<u8>,
    pub expected: Expected,
}

impl BodyWriteCase {
    /// All that is lent beside the output.
    pub fn lent(&self) -> rows::Lent<'_> {
        rows::Lent {
            numbers: self.fields.numbers(),
            id: &self.fields.id,
            suite_data: &self.fields.suite_data,
            text: &self.lent.text,
            pairs: &self.lent.pairs,
            keys: &self.lent.keys,
        }
    }
}

/// Faults of the fields, in the order of tests; 100 and 101 stand for those
/// of the pairs and of the keys.
const ORDER: [u32; 12] = [3, 5, 6, 7, 24, 100, 33, 101, 17, 19, 25, 20];

/// The request of a seed: any number of faults, of which the first in the
/// order of tests decides.
pub fn body_write_case(seed: u64) -> BodyWriteCase {
    let mut random = Random::new(seed);
    let random = &mut random;
    let mut fields = fields(random);
    let faulty_lists = random.one_in(3);
    let (mut pairs_fault, mut keys_fault) = (None, None);
    if faulty_lists {
        (fields.pairs, pairs_fault) = pairs_to_write(random);
        (fields.keys, keys_fault) = keys_to_write(random);
    }
    fields.form = sound_mark(random, &fields.pairs);
    let image = fields.image().bytes;
    let mut lent = lend(random, &fields.pairs, &fields.keys);
    if faulty_lists {
        let Lent { text, pairs, keys } = &mut lent;
        pairs_fault = spoil_table(random, pairs, 4, text).or(pairs_fault);
        // The text may grow here, and a place outside it come inside; the
        // pairs' 26 must stay, so their fault goes in once more.
        let before = text.len();
        keys_fault = spoil_table(random, keys, 6, text).or(keys_fault);
        if text.len() != before && pairs_fault == Some(26) {
            pairs.push(0);
            while pairs.len() % 4 == 0 {
                pairs.push(0);
            }
        }
    }

    let count = random.pick(&[0, 0, 0, 1, 1, 2, 3]);
    let faults: Vec<u32> = (0..count)
        .map(|_| random.pick(&ORDER))
        .filter(|&f| f < 100)
        // Without pairs an old mark is no fault.
        .filter(|&f| f != 33 || !fields.pairs.is_empty())
        .collect();
    let first = fields.version == 1;
    for &fault in &faults {
        spoil(random, &mut fields, first, fault, &faults);
    }
    let found = ORDER.iter().find_map(|&step| match step {
        100 => pairs_fault,
        101 => keys_fault,
        number => faults.contains(&number).then_some(number),
    });
    let (out, fits) = output(random, image.len());
    let expected = match found {
        Some(number) => Expected::Refused(number, 0),
        None if fits => Expected::Accepted,
        None => Expected::Refused(28, 0),
    };
    BodyWriteCase {
        fields,
        lent,
        out,
        image,
        expected,
    }
}

/// A mark that is no fault: today's, or without pairs any.
fn sound_mark(random: &mut Random, pairs: &[Pair]) -> u32 {
    match pairs.is_empty() && random.one_in(2) {
        true => old_mark(random),
        false => 0,
    }
}

/// Any number but 0.
fn old_mark(random: &mut Random) -> u32 {
    match random.below(3) {
        0 => random.between(1, u64::from(u32::MAX)) as u32,
        _ => random.pick(&OLD_MARKS),
    }
}

fn spoil(random: &mut Random, fields: &mut Fields, first: bool, fault: u32, faults: &[u32]) {
    // Some wrong numbers agree with the right one in their lowest bytes.
    let wide = random.one_in(4);
    match fault {
        3 => fields.version = if wide { 257 } else { byte_but(random, &[1, 2]) },
        5 => {
            let right = if first { 0x80 } else { 0 };
            fields.message_type = if wide {
                0x100 | u32::from(right)
            } else {
                byte_but(random, &[right])
            };
        }
        6 => {
            fields.suite = if wide {
                fields.suite | 0x1_0000
            } else {
                unknown_suite(random)
            }
        }
        7 if !faults.contains(&6) => {
            fields.suite = suite_of(random, if first { 2 } else { 1 });
        }
        17 => {
            fields.content_type = if wide {
                0x102
            } else {
                byte_but(random, &[1, 2])
            }
        }
        19 => {
            let right = if first { 12 } else { 0 };
            fields.iv_length = if wide {
                0x100 | u32::from(right)
            } else {
                byte_but(random, &[right])
            };
        }
        20 if !faults.contains(&17) => {
            fields.frame_length = frame_length(random, 3 - fields.content_type);
        }
        24 => fields.id = wrong_length(random, &[if first { 16 } else { 32 }]),
        25 => fields.suite_data = wrong_length(random, &[if first { 0 } else { 32 }]),
        33 => fields.form = old_mark(random),
        _ => {}
    }
}

/// Bytes of any length but the right one; often the other version's.
pub fn wrong_length(random: &mut Random, right: &[usize]) -> Vec<u8> {
    loop {
        let length = match random.below(3) {
            0 => random.pick(&[0, 12, 16, 32]),
            1 => right[0].saturating_sub(1) + 2 * random.index(2),
            _ => random.index(80),
        };
        if !right.contains(&length) {
            return random.bytes(length);
        }
    }
}
