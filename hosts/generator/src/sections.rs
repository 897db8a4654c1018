//! Context sections, intact and damaged, with what the damage decides.

use crate::fields;
use crate::image::{entry_length_off, pairs_length, section, section_with, Form, Image};
use crate::random::Random;
use crate::surroundings::flip_bits;
use crate::texts::{bad_text, text, text_of};
use crate::Pair;

/// The kinds of section.
#[derive(Clone, Copy, Debug, PartialEq, Eq)]
pub enum Kind {
    Intact,
    OldForm,
    BitFlips,
    LengthUp,
    LengthDown,
    EndsEarly,
    CountUp,
    CountDown,
    EntryLength,
    Duplicate,
    BadKey,
    BadValue,
    Longest,
    TooLong,
    CountInEmpty,
    NoPairs,
    PastEnd,
    Noise,
}

const LIGHT: [Kind; 16] = [
    Kind::Intact,
    Kind::OldForm,
    Kind::BitFlips,
    Kind::LengthUp,
    Kind::LengthDown,
    Kind::EndsEarly,
    Kind::CountUp,
    Kind::CountDown,
    Kind::EntryLength,
    Kind::Duplicate,
    Kind::BadKey,
    Kind::BadValue,
    Kind::CountInEmpty,
    Kind::NoPairs,
    Kind::PastEnd,
    Kind::Noise,
];

/// A kind; the two that take 65 kB are rare.
pub fn kind(random: &mut Random) -> Kind {
    match random.below(400) {
        0 => Kind::Longest,
        1 | 2 => Kind::TooLong,
        3..=100 => Kind::Intact,
        _ => random.pick(&LIGHT),
    }
}

/// What a section's own bytes decide, given at least one byte behind.
#[derive(Clone, Copy, Debug, PartialEq, Eq)]
pub enum Verdict {
    Accepted,
    /// 00 02 00 00: accepted, or refused with 21 by a strict reader.
    Old,
    Refused(u32),
    Open,
}

/// A section, and the pairs it holds if it is accepted.
#[derive(Clone, Debug)]
pub struct Section {
    pub image: Image,
    pub pairs: Vec<Pair>,
    pub verdict: Verdict,
}

/// At least one pair.
fn some_pairs(random: &mut Random) -> Vec<Pair> {
    let mut pairs = fields::pairs(random, 20);
    if pairs.is_empty() {
        pairs.push((text(random, 8), text(random, 8)));
    }
    pairs
}

/// A key that stands a second time, at a place behind the first.
pub fn duplicate(random: &mut Random, pairs: &mut Vec<Pair>) {
    let first = random.index(pairs.len());
    let again = first + 1 + random.index(pairs.len() - first);
    let key = pairs[first].0.clone();
    pairs.insert(again, (key, text(random, 8)));
}

/// A pair that brings all pairs to `total` bytes, put in at a random place.
/// Answers its place.
pub fn stretch(random: &mut Random, pairs: &mut Vec<Pair>, total: usize) -> usize {
    let rest = total - pairs_length(pairs) - 4;
    let key_length = if random.one_in(3) { rest / 2 } else { 30 };
    let key = text_of(random, key_length);
    let value = text_of(random, rest - key_length);
    let at = random.index(pairs.len() + 1);
    pairs.insert(at, (key, value));
    at
}

/// Pairs that take 65,534 bytes or a few more, in any order. No stored length
/// can be right, so one of their parts goes past the section. A fault in that
/// part or a later one is not met before 32; one in an earlier pair is.
fn too_long(random: &mut Random) -> Section {
    let more = random.index(30);
    let total = random.pick(&[65_534, 65_534 + more]);
    let mut pairs = some_pairs(random);
    let mut number = 32;
    // Any length above 2 leads into the pairs.
    let any = random.between(3, 65_535) as u16;
    let mut length = random.pick(&[65_535, any]);
    match random.below(4) {
        0 => {
            let key = pairs[random.index(pairs.len())].0.clone();
            let rest = 65_534 - pairs_length(&pairs) - 4 - key.len();
            pairs.push((key, text_of(random, rest)));
        }
        1 => {
            stretch(random, &mut pairs, total);
            let passing = passing(&pairs);
            pairs[passing].1.push(0x80);
        }
        2 => {
            stretch(random, &mut pairs, total);
            pairs.insert(0, (bad_text(random), Vec::new()));
            (length, number) = (65_535, 10);
        }
        _ => {
            stretch(random, &mut pairs, total);
            if random.one_in(3) {
                pairs.push((bad_text(random), Vec::new()));
            }
        }
    }
    let image = section_with(&pairs, length, pairs.len() as u16);
    Section {
        image,
        pairs,
        verdict: Verdict::Refused(number),
    }
}

/// The pair with which the pairs reach 65,534 bytes.
fn passing(pairs: &[Pair]) -> usize {
    (0..pairs.len())
        .find(|&i| pairs_length(&pairs[..=i]) >= 65_534)
        .unwrap_or(0)
}

/// A section of the kind asked for.
pub fn build(random: &mut Random, kind: Kind) -> Section {
    let mut pairs = match kind {
        Kind::Intact | Kind::Longest => fields::pairs(random, 40),
        Kind::OldForm | Kind::CountInEmpty | Kind::NoPairs | Kind::Noise => Vec::new(),
        Kind::TooLong => return too_long(random),
        _ => some_pairs(random),
    };
    let verdict = spoil_pairs(random, kind, &mut pairs);
    let form = if kind == Kind::OldForm {
        Form::Old
    } else {
        Form::Today
    };
    let mut image = section(&pairs, form);
    let verdict = spoil_image(random, kind, &pairs, &mut image).unwrap_or(verdict);
    Section {
        image,
        pairs,
        verdict,
    }
}

/// What is wrong with the pairs themselves.
fn spoil_pairs(random: &mut Random, kind: Kind, pairs: &mut Vec<Pair>) -> Verdict {
    match kind {
        Kind::Duplicate => {
            duplicate(random, pairs);
            Verdict::Refused(12)
        }
        Kind::BadKey => {
            let at = random.index(pairs.len());
            pairs[at].0 = bad_text(random);
            Verdict::Refused(10)
        }
        Kind::BadValue => {
            let at = random.index(pairs.len());
            pairs[at].1 = bad_text(random);
            Verdict::Refused(11)
        }
        Kind::Longest => {
            stretch(random, pairs, 65_533);
            Verdict::Accepted
        }
        _ => Verdict::Accepted,
    }
}

/// What is wrong with how they are stored; none where that is right.
fn spoil_image(
    random: &mut Random,
    kind: Kind,
    pairs: &[Pair],
    image: &mut Image,
) -> Option<Verdict> {
    let length = (image.bytes.len() - 2) as u16;
    let count = pairs.len() as u16;
    match kind {
        Kind::OldForm => return Some(Verdict::Old),
        Kind::BitFlips => flip_bits(random, &mut image.bytes),
        Kind::LengthUp => *image = section_with(pairs, length + 1, count),
        Kind::LengthDown => {
            let any = random.between(3, u64::from(length) - 1) as u16;
            let shorter = random.pick(&[length - 1, any]);
            *image = section_with(pairs, shorter, count);
        }
        Kind::EndsEarly => *image = ends_early(random, pairs, length),
        Kind::CountUp => *image = section_with(pairs, length, count + 1),
        Kind::CountDown => *image = section_with(pairs, length, count - 1),
        Kind::EntryLength => {
            let parts: Vec<_> = pairs.iter().flat_map(|(key, value)| [key, value]).collect();
            entry_length_off(random, &mut image.bytes, 4, &parts);
        }
        Kind::PastEnd => past_end(random, image),
        Kind::CountInEmpty => {
            let count = 1 + random.below(65_535) as u16;
            *image = section_with(&[], 2, count);
        }
        Kind::NoPairs => return Some(without_pairs(random, image)),
        Kind::Noise => {
            let count = random.length(60);
            image.bytes = random.bytes(count);
        }
        _ => return None,
    }
    Some(stored_wrong(kind, count))
}

/// What that decides, where the pairs are this many.
fn stored_wrong(kind: Kind, count: u16) -> Verdict {
    match kind {
        Kind::LengthUp | Kind::EndsEarly => Verdict::Refused(14),
        Kind::CountDown => Verdict::Refused(if count == 1 { 9 } else { 14 }),
        Kind::LengthDown | Kind::CountUp | Kind::PastEnd => Verdict::Refused(32),
        Kind::CountInEmpty => Verdict::Refused(8),
        _ => Verdict::Open,
    }
}

/// The stored length goes beyond the pairs, and so do bytes.
fn ends_early(random: &mut Random, pairs: &[Pair], length: u16) -> Image {
    let more = 1 + random.length(300);
    let mut image = section_with(pairs, length + more as u16, pairs.len() as u16);
    image.bytes.extend(random.bytes(more));
    image
}

/// An entry, of any pair, that takes in a byte behind the section, or more.
fn past_end(random: &mut Random, image: &mut Image) {
    // Behind the ends of the length, of the section and of the count, each
    // entry has two: where its bytes start, and where they end.
    let entry = random.index((image.stops.len() - 3) / 2);
    let starts = image.stops[3 + 2 * entry] as usize;
    let more = random.pick(&[0, 0, 1, 2, 300, 65_535]);
    let length = (image.bytes.len() - starts + 1 + more).min(65_535) as u16;
    image.bytes[starts - 2..starts].copy_from_slice(&length.to_be_bytes());
}

/// A count of 0 in a section that isn't empty.
fn without_pairs(random: &mut Random, image: &mut Image) -> Verdict {
    let length = random.pick(&[1, 3, 4, 5, 6, 20, 300]);
    *image = section_with(&[], length, 0);
    let rest = random.bytes(usize::from(length).saturating_sub(2));
    image.bytes.extend(rest);
    Verdict::Refused(if length == 1 { 32 } else { 9 })
}
