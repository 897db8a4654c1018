//! Requests to read a header body.

use crate::fields::{back, fields, frame_length, front, suite_of, Fields, SUITES_V1, SUITES_V2};
use crate::image::Form;
use crate::key_cases::{self, maximum};
use crate::random::Random;
use crate::sections::{self, Verdict};
use crate::surroundings::{cut, flip_bits, start_past, start_too_large, table, whole, Placed};
use crate::Expected;

/// Which reader is asked.
#[derive(Clone, Copy, Debug, PartialEq, Eq)]
pub enum Reader {
    Either,
    V1,
    V2,
}

/// A request. Accepted, it gives `fields` and the tail `end`.
#[derive(Clone, Debug)]
pub struct BodyCase {
    pub message: Vec<u8>,
    pub start: u64,
    pub reader: Reader,
    pub strict: bool,
    pub max: Option<u64>,
    pub pair_table: Vec<u32>,
    pub key_table: Vec<u32>,
    pub fields: Fields,
    pub end: u64,
    pub expected: Expected,
}

/// The faults a body may have, beside those of its two sections. Some make no
/// difference to some versions.
const FAULTS: [u32; 12] = [3, 4, 5, 6, 7, 15, 17, 18, 19, 20, 22, 23];

/// The order in which a reader meets refusals; 8 stands for all of a context
/// section's.
const ORDER: [u32; 15] = [3, 4, 5, 6, 7, 8, 38, 15, 16, 17, 18, 19, 20, 22, 23];

/// A reader that takes the version.
fn reader(random: &mut Random, version: u32) -> Reader {
    match (random.below(3), version) {
        (0, 1) => Reader::V1,
        (0, _) => Reader::V2,
        _ => Reader::Either,
    }
}

/// A number that is no suite's, often one byte from it.
pub fn unknown_suite(random: &mut Random) -> u32 {
    loop {
        let version = if random.one_in(3) { 2 } else { 1 };
        let known = suite_of(random, version) as u16;
        let number = match random.below(5) {
            0 => known.swap_bytes(),
            1 => known ^ (1 << random.below(16)),
            2 => known.wrapping_add(1),
            3 => random.pick(&[0, 0xFFFF, 0x0246, 0x0278, 0x0314, 0x0414, 0x0446, 0x0678]),
            _ => random.next_u64() as u16,
        };
        if !SUITES_V1.contains(&number) && !SUITES_V2.contains(&number) {
            return u32::from(number);
        }
    }
}

/// A byte that is none of those given.
pub fn byte_but(random: &mut Random, not: &[u8]) -> u32 {
    loop {
        let byte = match random.below(3) {
            0 => random.pick(&[0, 1, 2, 3, 0x0C, 0x7F, 0x80, 0x81, 0xFF]),
            _ => random.byte(),
        };
        if !not.contains(&byte) {
            return u32::from(byte);
        }
    }
}

/// The request of a seed.
pub fn body_case(seed: u64) -> BodyCase {
    let mut random = Random::new(seed);
    let random = &mut random;
    match random.below(16) {
        0..=2 => misplaced(random),
        3 => flipped(random),
        _ => faulty(random),
    }
}

/// An intact body, or one whose only fault is that it has no key, that is cut
/// or read from a wrong start.
fn misplaced(random: &mut Random) -> BodyCase {
    let mut fields = fields(random);
    if random.one_in(8) {
        fields.keys.clear();
    }
    let image = fields.image();
    let placed = match random.below(8) {
        0 => start_past(random, &image, 1),
        1 => start_too_large(random, &image),
        _ => cut(random, &image),
    };
    let behind = back(&fields, [0; 4]).bytes.len();
    let front = image.bytes.len() - behind;
    let counted = placed.start.saturating_add(front as u64);
    let expected = match placed.fault {
        // The count is there, and what is wanted behind it isn't looked for.
        Some((2, position)) if fields.keys.is_empty() && position > counted => {
            Expected::Refused(38, 0)
        }
        Some((number, position)) => Expected::Refused(number, position),
        None => Expected::Open,
    };
    // The old form isn't read strictly here, lest 21 come before the cut.
    let today = Form::marked(fields.form) == Form::Today;
    finish(random, fields, placed, today, expected)
}

/// A body with a few bits turned.
fn flipped(random: &mut Random) -> BodyCase {
    let fields = fields(random);
    let image = fields.image();
    let mut placed = whole(random, &image, 0);
    let (start, end) = (placed.start as usize, placed.end as usize);
    flip_bits(random, &mut placed.message[start..end]);
    finish(random, fields, placed, true, Expected::Open)
}

fn finish(
    random: &mut Random,
    fields: Fields,
    placed: Placed,
    may_be_strict: bool,
    expected: Expected,
) -> BodyCase {
    let reader = reader(random, fields.version);
    let (pair_table, _) = table(random, 4 * fields.pairs.len(), true);
    let (key_table, _) = table(random, 6 * fields.keys.len(), true);
    BodyCase {
        reader,
        strict: may_be_strict && random.one_in(2),
        max: maximum(random, fields.keys.len(), false),
        pair_table,
        key_table,
        message: placed.message,
        start: placed.start,
        end: placed.end,
        fields,
        expected,
    }
}

/// A body with any number of faults, none included. The first of them in the
/// order of tests decides.
fn faulty(random: &mut Random) -> BodyCase {
    let count = random.pick(&[0, 0, 0, 1, 1, 1, 1, 2, 2, 3]);
    let mut faults: Vec<u32> = (0..count).map(|_| random.pick(&FAULTS)).collect();
    let mut fields = fields(random);
    let first = fields.version == 1;

    let kind = match random.below(12) {
        0..=3 => sections::kind(random),
        4 => sections::Kind::OldForm,
        _ => sections::Kind::Intact,
    };
    let section = sections::build(random, kind);
    let key_kind = match random.below(24) {
        0 => key_cases::kind(random),
        1 => key_cases::Kind::BadProvider,
        2 => key_cases::Kind::NoKey,
        _ => key_cases::Kind::Intact,
    };
    let keys = key_cases::build(random, key_kind);
    fields.pairs = section.pairs.clone();
    fields.form = match section.verdict {
        Verdict::Old => Form::Old.mark(),
        _ => Form::Today.mark(),
    };
    fields.keys = keys.keys.clone();

    let mut reader = reader(random, fields.version);
    // Some faults can't be in this body; some make no difference to it.
    faults.retain(|&fault| match fault {
        5 | 18 | 19 => first,
        15 | 23 => !fields.keys.is_empty() && !keys.open,
        22 => !fields.pairs.is_empty(),
        _ => true,
    });
    let has = |fault: u32| faults.contains(&fault);
    if has(4) {
        reader = if first { Reader::V2 } else { Reader::V1 };
    }
    let strict = random.one_in(2);
    let reserved = reserved(random, has(18));
    spoil(random, &mut fields, &faults);

    let mut image = front(&fields);
    image
        .image(&section.image)
        .image(&keys.image)
        .image(&back(&fields, reserved));
    // Bytes behind, so that a length one too long meets no shortage.
    let placed = whole(random, &image, 2);

    let (mut pair_table, _) = table(random, 4 * fields.pairs.len(), false);
    let (mut key_table, _) = table(random, 6 * fields.keys.len(), false);
    if has(22) {
        let numbers = 4 * fields.pairs.len();
        pair_table.truncate(if random.one_in(2) {
            numbers - 1
        } else {
            random.index(numbers)
        });
    }
    if has(23) {
        key_table.truncate(6 * fields.keys.len() - 1);
    }

    let mut found = Expected::Accepted;
    for step in ORDER {
        found = match step {
            8 => match section.verdict {
                Verdict::Accepted => continue,
                Verdict::Old if strict => Expected::Refused(21, 0),
                Verdict::Old => continue,
                Verdict::Refused(number) => Expected::Refused(number, 0),
                Verdict::Open => Expected::Open,
            },
            38 if keys.open => Expected::Open,
            38 | 16 if keys.refused == Some(step) => Expected::Refused(step, 0),
            // Met by the reader of either version alone.
            20 if has(20) && reader == Reader::Either => Expected::Refused(20, 0),
            20 | 16 | 38 => continue,
            number if has(number) => Expected::Refused(number, 0),
            _ => continue,
        };
        break;
    }
    let max = maximum(random, fields.keys.len(), has(15));
    BodyCase {
        message: placed.message,
        start: placed.start,
        reader,
        strict,
        max,
        pair_table,
        key_table,
        fields,
        end: placed.end,
        expected: found,
    }
}

/// The reserved bytes, of which one is wrong or none.
pub(crate) fn reserved(random: &mut Random, wrong: bool) -> [u8; 4] {
    let mut reserved = [0; 4];
    if wrong {
        reserved[random.index(4)] = 1 + random.below(255) as u8;
    }
    reserved
}

/// Makes fields wrong by the numbers of the refusals they bring about.
pub(crate) fn spoil(random: &mut Random, fields: &mut Fields, faults: &[u32]) {
    for &fault in faults {
        match fault {
            5 => fields.message_type = byte_but(random, &[0x80]),
            6 => fields.suite = unknown_suite(random),
            7 if !faults.contains(&6) => {
                fields.suite = suite_of(random, 3 - fields.version);
            }
            17 => fields.content_type = byte_but(random, &[1, 2]),
            19 => fields.iv_length = byte_but(random, &[12]),
            20 if !faults.contains(&17) => {
                let other = 3 - fields.content_type;
                fields.frame_length = frame_length(random, other);
            }
            _ => {}
        }
    }
    // Last, as the version decides the layout and what the others mean. The
    // layout of version 1 stands in for that of an unknown one.
    if faults.contains(&3) {
        fields.version = byte_but(random, &[1, 2]);
    }
}
