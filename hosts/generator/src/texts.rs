//! UTF-8 texts of each kind of character, and sequences that aren't UTF-8.

use crate::random::Random;

/// The kinds of character, by what their first bytes allow, as ranges of
/// code points.
pub const KINDS: [(u32, u32); 9] = [
    (0x00, 0x7F),
    (0x80, 0x7FF),
    (0x800, 0xFFF),
    (0x1000, 0xCFFF),
    (0xD000, 0xD7FF),
    (0xE000, 0xFFFF),
    (0x10000, 0x3FFFF),
    (0x40000, 0xFFFFF),
    (0x100000, 0x10FFFF),
];

/// The bytes of a code point, by arithmetic alone.
pub fn encode(point: u32) -> Vec<u8> {
    let tail = |shift: u32| 0x80 | (point >> shift & 0x3F) as u8;
    match point {
        0..=0x7F => vec![point as u8],
        0x80..=0x7FF => vec![0xC0 | (point >> 6) as u8, tail(0)],
        0x800..=0xFFFF => vec![0xE0 | (point >> 12) as u8, tail(6), tail(0)],
        _ => vec![0xF0 | (point >> 18) as u8, tail(12), tail(6), tail(0)],
    }
}

/// A character of a kind; often the first or last of it.
pub fn character(random: &mut Random, kind: usize) -> Vec<u8> {
    let (low, high) = KINDS[kind];
    encode(match random.below(6) {
        0 => low,
        1 => high,
        _ => random.between(u64::from(low), u64::from(high)) as u32,
    })
}

/// A text of at most `most` bytes.
pub fn text(random: &mut Random, most: usize) -> Vec<u8> {
    let length = random.length(most);
    text_of(random, length)
}

/// A text of exactly `length` bytes; in two of three all lowercase ASCII.
pub fn text_of(random: &mut Random, length: usize) -> Vec<u8> {
    let mut bytes = Vec::with_capacity(length + 4);
    if random.below(3) < 2 {
        while bytes.len() < length {
            bytes.push(b'a' + random.below(26) as u8);
        }
        return bytes;
    }
    while bytes.len() < length {
        let kind = random.index(KINDS.len());
        let next = character(random, kind);
        if bytes.len() + next.len() <= length {
            bytes.extend_from_slice(&next);
        } else {
            bytes.push(random.below(0x80) as u8);
        }
    }
    bytes
}

/// The kinds of sequence that aren't UTF-8.
#[derive(Clone, Copy, Debug, PartialEq, Eq)]
pub enum Bad {
    OverlongTwo,
    OverlongThree,
    OverlongFour,
    Surrogate,
    AboveF48F,
    FirstAboveF4,
    LoneTail,
    Truncated,
    TailReplaced,
}

pub const BAD_KINDS: [Bad; 9] = [
    Bad::OverlongTwo,
    Bad::OverlongThree,
    Bad::OverlongFour,
    Bad::Surrogate,
    Bad::AboveF48F,
    Bad::FirstAboveF4,
    Bad::LoneTail,
    Bad::Truncated,
    Bad::TailReplaced,
];

/// A sequence that no text may hold.
pub fn bad_sequence(random: &mut Random, kind: Bad) -> Vec<u8> {
    let mut byte = |low: u8, high: u8| random.between(u64::from(low), u64::from(high)) as u8;
    match kind {
        Bad::OverlongTwo => vec![byte(0xC0, 0xC1), byte(0x80, 0xBF)],
        Bad::OverlongThree => vec![0xE0, byte(0x80, 0x9F), byte(0x80, 0xBF)],
        Bad::OverlongFour => vec![0xF0, byte(0x80, 0x8F), byte(0x80, 0xBF), byte(0x80, 0xBF)],
        Bad::Surrogate => vec![0xED, byte(0xA0, 0xBF), byte(0x80, 0xBF)],
        Bad::AboveF48F => vec![0xF4, byte(0x90, 0xBF), byte(0x80, 0xBF), byte(0x80, 0xBF)],
        Bad::FirstAboveF4 => {
            vec![
                byte(0xF5, 0xFF),
                byte(0x80, 0xBF),
                byte(0x80, 0xBF),
                byte(0x80, 0xBF),
            ]
        }
        Bad::LoneTail => vec![byte(0x80, 0xBF)],
        Bad::Truncated => {
            let kind = 1 + random.index(KINDS.len() - 1);
            let mut bytes = character(random, kind);
            let kept = 1 + random.index(bytes.len() - 1);
            bytes.truncate(kept);
            bytes
        }
        Bad::TailReplaced => {
            let kind = 1 + random.index(KINDS.len() - 1);
            let mut bytes = character(random, kind);
            let at = 1 + random.index(bytes.len() - 1);
            bytes[at] = random.pick(&[0x00, 0x7F, 0x41, 0xC0, 0xC2, 0xF4, 0xFF]);
            bytes
        }
    }
}

/// A bad sequence of any kind with text around it. The text behind begins
/// with a first byte, so it mends no truncated character.
pub fn bad_text(random: &mut Random) -> Vec<u8> {
    let kind = random.pick(&BAD_KINDS);
    let mut bytes = text(random, 20);
    bytes.extend(bad_sequence(random, kind));
    bytes.extend(text(random, 20));
    bytes
}
