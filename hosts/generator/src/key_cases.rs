//! Requests to read a key section.

use crate::fields;
use crate::image::{entry_length_off, keys, keys_with, Image};
use crate::random::Random;
use crate::surroundings::{cut, flip_bits, start_past, start_too_large, table, whole};
use crate::texts::bad_text;
use crate::{Expected, Key};

/// A request. Accepted, it gives `keys` and the tail `end`.
#[derive(Clone, Debug)]
pub struct KeyCase {
    pub message: Vec<u8>,
    pub start: u64,
    pub max: Option<u64>,
    pub table: Vec<u32>,
    pub keys: Vec<Key>,
    pub end: u64,
    pub expected: Expected,
}

/// The kinds of key section.
#[derive(Clone, Copy, Debug, PartialEq, Eq)]
pub enum Kind {
    Intact,
    BitFlips,
    CountUp,
    CountDown,
    EntryLength,
    BadProvider,
    NoKey,
    Noise,
}

/// A key section and what its bytes decide: `None` if nothing.
#[derive(Clone, Debug)]
pub struct KeySection {
    pub image: Image,
    pub keys: Vec<Key>,
    pub refused: Option<u32>,
    pub open: bool,
}

const DAMAGED: [Kind; 7] = [
    Kind::BitFlips,
    Kind::CountUp,
    Kind::CountDown,
    Kind::EntryLength,
    Kind::BadProvider,
    Kind::NoKey,
    Kind::Noise,
];

/// A kind; every other one is intact.
pub fn kind(random: &mut Random) -> Kind {
    match random.one_in(2) {
        true => Kind::Intact,
        false => random.pick(&DAMAGED),
    }
}

/// A key section of the kind asked for.
pub fn build(random: &mut Random, kind: Kind) -> KeySection {
    let mut list = fields::keys(random, 12);
    match kind {
        Kind::NoKey => list.clear(),
        Kind::BadProvider => {
            let at = random.index(list.len());
            list[at][0] = bad_text(random);
        }
        _ => {}
    }
    let mut image = keys(&list);
    let count = list.len() as u16;
    match kind {
        Kind::BitFlips => flip_bits(random, &mut image.bytes),
        Kind::CountUp => image = keys_with(&list, count + 1),
        Kind::CountDown => image = keys_with(&list, count - 1),
        Kind::EntryLength => {
            let parts: Vec<_> = list.iter().flatten().collect();
            entry_length_off(random, &mut image.bytes, 2, &parts)
        }
        Kind::Noise => {
            let length = random.length(60);
            image.bytes = random.bytes(length);
        }
        Kind::Intact | Kind::BadProvider | Kind::NoKey => {}
    }
    let refused = match kind {
        Kind::NoKey => Some(38),
        Kind::BadProvider => Some(16),
        _ => None,
    };
    KeySection {
        image,
        keys: list,
        refused,
        open: refused.is_none() && kind != Kind::Intact,
    }
}

/// A maximum that a count passes, or doesn't.
pub fn maximum(random: &mut Random, count: usize, passed: bool) -> Option<u64> {
    let count = count as u64;
    if passed {
        return Some(random.pick(&[0, count / 2, count - 1]));
    }
    match random.below(5) {
        0 | 1 => None,
        2 => Some(count),
        3 => Some(random.between(count, u64::MAX)),
        _ => Some(
            random
                .pick(&[1 << 16, 1 << 32, 1 << 63, u64::MAX])
                .max(count),
        ),
    }
}

/// The request of a seed.
pub fn key_case(seed: u64) -> KeyCase {
    let mut random = Random::new(seed);
    let random = &mut random;
    let placing = random.below(16);
    let kind = match placing {
        // A section without a key is short up to the end of its count alone.
        0..=5 if random.one_in(12) => Kind::NoKey,
        0..=5 => Kind::Intact,
        _ => kind(random),
    };
    let section = build(random, kind);
    let placed = match placing {
        0..=3 => cut(random, &section.image),
        4 => start_past(random, &section.image, 2),
        5 => start_too_large(random, &section.image),
        _ => whole(random, &section.image, 0),
    };
    let count = section.keys.len();
    // The maximum is only sure to be passed where the count can be read.
    let passed = placing > 5 && count > 0 && !section.open && random.one_in(6);
    let max = maximum(random, count, passed);
    let (table, fits) = table(random, 6 * count, true);
    let expected = match placed.fault {
        Some((number, position)) => Expected::Refused(number, position),
        None if section.open => Expected::Open,
        None if passed => Expected::Refused(15, 0),
        None => match section.refused {
            Some(number) => Expected::Refused(number, 0),
            None if !fits => Expected::Refused(23, 0),
            None => Expected::Accepted,
        },
    };
    KeyCase {
        message: placed.message,
        start: placed.start,
        max,
        table,
        keys: section.keys,
        end: placed.end,
        expected,
    }
}
