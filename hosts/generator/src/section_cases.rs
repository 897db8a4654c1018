//! Requests to read a context section, or to find a value in one.

use crate::random::Random;
use crate::sections::{build, kind, Kind, Section, Verdict};
use crate::surroundings::{cut, start_past, start_too_large, table, whole, Placed};
use crate::texts::{bad_text, text};
use crate::{Expected, Pair};

/// A request. Accepted, it gives `pairs` and the tail `end`.
#[derive(Clone, Debug)]
pub struct SectionCase {
    pub message: Vec<u8>,
    pub start: u64,
    pub strict: bool,
    pub table: Vec<u32>,
    pub pairs: Vec<Pair>,
    pub end: u64,
    pub expected: Expected,
    /// A key to ask for.
    pub asked: Vec<u8>,
    /// The answer to that: `Accepted` means the value of pair `at`.
    pub find_expected: Expected,
    pub at: usize,
}

/// A section, where it stands, and what a tolerant reader whose table is long
/// enough answers to it.
pub fn placed_section(random: &mut Random) -> (Section, Placed, Expected) {
    let placing = random.below(16);
    let kind = match placing {
        0..=5 if random.one_in(4) => Kind::OldForm,
        0..=5 => Kind::Intact,
        _ => kind(random),
    };
    let section = build(random, kind);
    let placed = match placing {
        0..=3 => cut(random, &section.image),
        4 => start_past(random, &section.image, 2),
        5 => start_too_large(random, &section.image),
        _ => whole(random, &section.image, 1),
    };
    let tolerant = match (placed.fault, section.verdict) {
        (Some((number, position)), _) => Expected::Refused(number, position),
        (None, Verdict::Accepted | Verdict::Old) => Expected::Accepted,
        (None, Verdict::Refused(number)) => Expected::Refused(number, 0),
        (None, Verdict::Open) => Expected::Open,
    };
    (section, placed, tolerant)
}

/// The request of a seed.
pub fn section_case(seed: u64) -> SectionCase {
    let mut random = Random::new(seed);
    let random = &mut random;
    let (section, placed, tolerant) = placed_section(random);
    let strict = random.one_in(2);
    let (table, fits) = table(random, 4 * section.pairs.len(), true);
    let expected = match tolerant {
        Expected::Accepted if strict && section.verdict == Verdict::Old => Expected::Refused(21, 0),
        Expected::Accepted if !fits => Expected::Refused(22, 0),
        other => other,
    };
    let (asked, at) = asked(random, &section.pairs);
    let find_expected = match (tolerant, at) {
        (Expected::Accepted, None) => Expected::Refused(29, 0),
        (other, _) => other,
    };
    SectionCase {
        message: placed.message,
        start: placed.start,
        strict,
        table,
        pairs: section.pairs,
        end: placed.end,
        expected,
        asked,
        find_expected,
        at: at.unwrap_or(0),
    }
}

/// A key to ask for, and the pair that has it. Asked for are keys that are
/// there, ones that begin them or that they begin, and bytes of any kind.
pub fn asked(random: &mut Random, pairs: &[Pair]) -> (Vec<u8>, Option<usize>) {
    let mut key = match random.below(8) {
        0 => text(random, 12),
        1 => bad_text(random),
        2 => Vec::new(),
        _ if pairs.is_empty() => text(random, 3),
        _ => pairs[random.index(pairs.len())].0.clone(),
    };
    match random.below(6) {
        0 => key.push(0),
        1 => {
            key.pop();
        }
        _ => {}
    }
    let at = pairs.iter().position(|(other, _)| *other == key);
    (key, at)
}
