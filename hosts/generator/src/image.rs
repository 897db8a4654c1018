//! Images, built by concatenation, with the ends of the reads they ask for.

use crate::random::Random;
use crate::{Key, Pair};
use std::collections::BTreeSet;

/// Bytes, and the place where each read in turn ends. A message cut to `c`
/// bytes is short at the first of these above `c`.
#[derive(Clone, Debug, Default)]
pub struct Image {
    pub bytes: Vec<u8>,
    pub stops: Vec<u64>,
}

impl Image {
    /// A part that is one read.
    pub fn part(&mut self, bytes: &[u8]) -> &mut Image {
        self.bytes.extend_from_slice(bytes);
        self.stops.push(self.bytes.len() as u64);
        self
    }

    /// An entry: its length, then its bytes.
    pub fn entry(&mut self, bytes: &[u8]) -> &mut Image {
        self.part(&(bytes.len() as u16).to_be_bytes());
        self.part(bytes)
    }

    /// Another image behind this one.
    pub fn image(&mut self, other: &Image) -> &mut Image {
        let base = self.bytes.len() as u64;
        self.bytes.extend_from_slice(&other.bytes);
        self.stops
            .extend(other.stops.iter().map(|stop| base + stop));
        self
    }

    /// The position wanted of a message cut to `length` bytes, the image
    /// beginning at `before`.
    pub fn wanted(&self, before: u64, length: u64) -> Option<u64> {
        self.stops
            .iter()
            .map(|stop| before + stop)
            .find(|&stop| stop > length)
    }
}

/// How an empty context is stored.
#[derive(Clone, Copy, Debug, PartialEq, Eq)]
pub enum Form {
    Today,
    Old,
}

/// Marks that a writer takes for old: the one that a reader gives, and others,
/// of which some are 0 in their lowest byte or bytes.
pub const OLD_MARKS: [u32; 7] = [1, 2, 0xFF, 0x100, 0x1_0000, 0x8000_0000, u32::MAX];

impl Form {
    /// The mark of a body that was read in this form.
    pub const fn mark(self) -> u32 {
        match self {
            Form::Today => 0,
            Form::Old => 1,
        }
    }

    /// The form that a writer takes a mark for.
    pub const fn marked(mark: u32) -> Form {
        match mark {
            0 => Form::Today,
            _ => Form::Old,
        }
    }
}

/// A context section of any pairs, right or wrong, with a stored length and
/// count that may be wrong as well.
pub fn section_with(pairs: &[Pair], length: u16, count: u16) -> Image {
    let mut image = Image::default();
    image.part(&length.to_be_bytes());
    image.stops.push(2 + u64::from(length));
    image.part(&count.to_be_bytes());
    for (key, value) in pairs {
        image.entry(key).entry(value);
    }
    image
}

/// The bytes the pairs take.
pub fn pairs_length(pairs: &[Pair]) -> usize {
    pairs
        .iter()
        .map(|(key, value)| 4 + key.len() + value.len())
        .sum()
}

/// A context section as stored.
pub fn section(pairs: &[Pair], form: Form) -> Image {
    if pairs.is_empty() && form == Form::Today {
        let mut image = Image::default();
        image.part(&[0, 0]);
        return image;
    }
    section_with(pairs, (2 + pairs_length(pairs)) as u16, pairs.len() as u16)
}

/// A key section with a stored count that may be wrong.
pub fn keys_with(keys: &[Key], count: u16) -> Image {
    let mut image = Image::default();
    image.part(&count.to_be_bytes());
    for key in keys {
        for part in key {
            image.entry(part);
        }
    }
    image
}

/// A key section as stored.
pub fn keys(keys: &[Key]) -> Image {
    keys_with(keys, keys.len() as u16)
}

/// The pairs whose keys are required, as written to be authenticated only:
/// nothing where there are none, otherwise their count and then their entries
/// in the order of keys.
pub fn only_authenticated<'a>(
    pairs: &[Pair],
    required: impl IntoIterator<Item = &'a [u8]>,
) -> Vec<u8> {
    let required: BTreeSet<&[u8]> = required.into_iter().collect();
    let mut wanted: Vec<&Pair> = pairs
        .iter()
        .filter(|(key, _)| required.contains(&key[..]))
        .collect();
    if wanted.is_empty() {
        return Vec::new();
    }
    wanted.sort();
    let mut image = Image::default();
    image.part(&(wanted.len() as u16).to_be_bytes());
    for (key, value) in wanted {
        image.entry(key).entry(value);
    }
    image.bytes
}

/// Changes the stored length of one of these entries, which stand one behind
/// the other from `at` on, to a byte more or a byte less.
pub fn entry_length_off(random: &mut Random, bytes: &mut [u8], mut at: usize, parts: &[&Vec<u8>]) {
    let chosen = random.index(parts.len());
    at += parts[..chosen]
        .iter()
        .map(|part| 2 + part.len())
        .sum::<usize>();
    let length = parts[chosen].len() as u16;
    let wrong = if random.one_in(2) {
        length.wrapping_add(1)
    } else {
        length.wrapping_sub(1)
    };
    bytes[at..at + 2].copy_from_slice(&wrong.to_be_bytes());
}
