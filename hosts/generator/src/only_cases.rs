//! Requests to write the pairs of a context section that are required, to be
//! authenticated only.

use crate::image::only_authenticated;
use crate::random::Random;
use crate::section_cases::{asked, placed_section};
use crate::sections::{build, Kind, Section};
use crate::surroundings::{whole, Placed};
use crate::table_faults::misplace;
use crate::tables::lend_parts;
use crate::write_cases::output;
use crate::{Expected, Pair};

/// A request. Accepted, it puts `image` at the front of the output.
#[derive(Clone, Debug)]
pub struct OnlyCase {
    pub message: Vec<u8>,
    pub start: u64,
    /// None where the message is lent as the text as well.
    own_text: Option<Vec<u8>>,
    pub required: Vec<u32>,
    pub out: Vec<u8>,
    pub image: Vec<u8>,
    pub expected: Expected,
}

impl OnlyCase {
    /// What the required places lie in.
    pub fn text(&self) -> &[u8] {
        self.own_text.as_deref().unwrap_or(&self.message)
    }
}

/// The request of a seed. A fault of the section decides before one of the
/// required table, and that before an output that is too short.
pub fn only_case(seed: u64) -> OnlyCase {
    let mut random = Random::new(seed);
    let random = &mut random;
    let (section, placed, read) = match random.below(2) {
        0 => placed_section(random),
        _ => intact_section(random),
    };
    let (own_text, mut required) = if random.one_in(4) {
        let first = placed.start.saturating_add(4);
        (
            None,
            in_message(random, &section.pairs, first, &placed.message),
        )
    } else {
        let (text, required) = in_own_text(random, &section.pairs);
        (Some(text), required)
    };
    let text = own_text.as_deref().unwrap_or(&placed.message);
    let image = only_authenticated(&section.pairs, parts(text, &required));
    let (out, fits) = output(random, image.len());
    let misplaced = random.one_in(8);
    if misplaced {
        misplace(random, &mut required, 2, text);
    }
    let expected = match read {
        Expected::Accepted if misplaced => Expected::Refused(31, 0),
        Expected::Accepted if !fits => Expected::Refused(28, 0),
        other => other,
    };
    OnlyCase {
        message: placed.message,
        start: placed.start,
        own_text,
        required,
        out,
        image,
        expected,
    }
}

/// A section that is accepted, for faults of the rest to be met.
fn intact_section(random: &mut Random) -> (Section, Placed, Expected) {
    let section = build(random, Kind::Intact);
    let placed = whole(random, &section.image, 0);
    (section, placed, Expected::Accepted)
}

/// The parts at a table's places, all of which lie inside.
fn parts<'a>(text: &'a [u8], table: &'a [u32]) -> impl Iterator<Item = &'a [u8]> {
    let part = |place: &[u32]| &text[place[0] as usize..][..place[1] as usize];
    table.chunks_exact(2).map(part)
}

/// Required keys in a text of their own: all, some or none of the pairs', keys
/// near to them, bytes of any kind, and some of these again.
fn in_own_text(random: &mut Random, pairs: &[Pair]) -> (Vec<u8>, Vec<u32>) {
    let share = random.pick(&[1, 1, 2, 3, 20]);
    let mut keys: Vec<Vec<u8>> = pairs
        .iter()
        .filter(|_| random.one_in(share))
        .map(|(key, _)| key.clone())
        .collect();
    for _ in 0..random.length(8) {
        let key = asked(random, pairs).0;
        keys.push(key);
    }
    repeat(random, &mut keys);
    let keys: Vec<&[u8]> = keys.iter().map(|key| &key[..]).collect();
    let (text, mut required) = lend_parts(random, &keys);
    any_places(random, &text, &mut required);
    (text, required)
}

/// The places of some pairs' keys where the section has them, if the first
/// pair is at `first`. Not all lie there where the section is damaged; those
/// outside of the message are left out.
fn in_message(random: &mut Random, pairs: &[Pair], first: u64, message: &[u8]) -> Vec<u32> {
    let mut at = first;
    let mut places = Vec::new();
    for (key, value) in pairs {
        let (start, length) = (at.saturating_add(2), key.len() as u64);
        let inside = start.saturating_add(length) <= message.len() as u64;
        if inside && random.one_in(2) {
            places.push([start as u32, length as u32]);
        }
        at = at.saturating_add(4 + length + value.len() as u64);
    }
    repeat(random, &mut places);
    let mut required = places.concat();
    any_places(random, message, &mut required);
    required
}

/// Some of a list a second time, and all in any order.
fn repeat<T: Clone>(random: &mut Random, list: &mut Vec<T>) {
    if !list.is_empty() {
        for _ in 0..random.index(3) {
            let again = list[random.index(list.len())].clone();
            list.push(again);
        }
    }
    random.shuffle(list);
}

/// A few places more, anywhere in the text; they may overlap the others.
fn any_places(random: &mut Random, text: &[u8], required: &mut Vec<u32>) {
    for _ in 0..random.index(3) {
        let start = random.index(text.len() + 1);
        let length = random.length(12).min(text.len() - start);
        required.extend([start as u32, length as u32]);
    }
}
