//! The fields of a header body, and their images.

use crate::image::{self, Form, Image};
use crate::random::Random;
use crate::rows::Added;
use crate::texts::{text, text_of};
use crate::{Key, Pair};

pub const SUITES_V1: [u16; 9] = [
    0x0014, 0x0046, 0x0078, 0x0114, 0x0146, 0x0178, 0x0214, 0x0346, 0x0378,
];
pub const SUITES_V2: [u16; 2] = [0x0478, 0x0578];

/// The fields of a body; numbers wide enough to be wrong.
#[derive(Clone, Debug, PartialEq, Eq)]
pub struct Fields {
    pub version: u32,
    pub message_type: u32,
    pub suite: u32,
    pub id: Vec<u8>,
    pub pairs: Vec<Pair>,
    pub keys: Vec<Key>,
    pub content_type: u32,
    pub iv_length: u32,
    pub frame_length: u32,
    /// The mark of the form.
    pub form: u32,
    pub suite_data: Vec<u8>,
}

/// Everything of a body in front of its context section.
pub fn front(fields: &Fields) -> Image {
    let mut image = Image::default();
    image.part(&[fields.version as u8]);
    if fields.version != 2 {
        image.part(&[fields.message_type as u8]);
    }
    image
        .part(&(fields.suite as u16).to_be_bytes())
        .part(&fields.id);
    image
}

/// Everything behind its key section.
pub fn back(fields: &Fields, reserved: [u8; 4]) -> Image {
    let mut image = Image::default();
    image.part(&[fields.content_type as u8]);
    if fields.version != 2 {
        image.part(&reserved).part(&[fields.iv_length as u8]);
    }
    image.part(&fields.frame_length.to_be_bytes());
    if fields.version == 2 {
        image.part(&fields.suite_data);
    }
    image
}

impl Fields {
    /// Version, type, suite, content type, IV length, frame length and form.
    pub fn numbers(&self) -> [u32; 7] {
        [
            self.version,
            self.message_type,
            self.suite,
            self.content_type,
            self.iv_length,
            self.frame_length,
            self.form,
        ]
    }

    /// The image, an empty context stored in the form that is marked.
    pub fn image(&self) -> Image {
        let mut image = front(self);
        image.image(&image::section(&self.pairs, Form::marked(self.form)));
        image.image(&image::keys(&self.keys));
        image.image(&back(self, [0; 4]));
        image
    }

    /// What these fields of version 1 become as a body of version 2.
    pub fn reissued(&self, added: Added) -> Fields {
        Fields {
            version: 2,
            message_type: 0,
            suite: added.suite,
            id: added.id.to_vec(),
            iv_length: 0,
            form: Form::Today.mark(),
            suite_data: added.suite_data.to_vec(),
            ..self.clone()
        }
    }
}

/// A suite of version 1 or of version 2.
pub fn suite_of(random: &mut Random, version: u32) -> u32 {
    u32::from(match version {
        1 => random.pick(&SUITES_V1),
        _ => random.pick(&SUITES_V2),
    })
}

/// A frame length that agrees with a content type.
pub fn frame_length(random: &mut Random, content_type: u32) -> u32 {
    match content_type {
        1 => 0,
        _ => random.pick(&[1, 2, 4096, 0xFF, 0x100, 0x8000_0000, u32::MAX]),
    }
}

/// Pairs whose keys differ; some begin one another, some parts are empty.
pub fn pairs(random: &mut Random, most: usize) -> Vec<Pair> {
    let count = match random.below(8) {
        0 | 1 => 0,
        2 | 3 => 1,
        7 => random.index(most + 1),
        _ => random.index(most.min(5) + 1),
    };
    let mut pairs: Vec<Pair> = Vec::with_capacity(count);
    while pairs.len() < count {
        let key = match (pairs.is_empty(), random.below(4)) {
            (false, 0) => near_key(random, &pairs),
            _ => text(random, 24),
        };
        if pairs.iter().all(|(other, _)| *other != key) {
            let value = text(random, 40);
            pairs.push((key, value));
        }
    }
    pairs
}

/// A key that begins another, or that another begins.
fn near_key(random: &mut Random, pairs: &[Pair]) -> Vec<u8> {
    let at = random.index(pairs.len());
    near(random, &pairs[at].0)
}

/// A text that begins another, or that the other begins; some are equal to it.
pub fn near(random: &mut Random, other: &[u8]) -> Vec<u8> {
    let mut text = other.to_vec();
    if random.one_in(2) {
        let added = 1 + random.index(3);
        text.extend(text_of(random, added));
    } else {
        // Only ASCII may go, so that no character is torn.
        while text.last().is_some_and(|byte| *byte < 0x80) {
            text.pop();
            if random.one_in(2) {
                break;
            }
        }
    }
    text
}

/// Keys, at least one, some of them equal.
pub fn keys(random: &mut Random, most: usize) -> Vec<Key> {
    let count = match random.below(8) {
        0..=4 => 1,
        5 | 6 => 1 + random.index(most.min(4)),
        _ => 1 + random.index(most),
    };
    let mut keys: Vec<Key> = Vec::with_capacity(count);
    while keys.len() < count {
        let key = if !keys.is_empty() && random.one_in(5) {
            keys[random.index(keys.len())].clone()
        } else {
            let (info, cipher) = (random.length(40), random.length(64));
            [text(random, 20), random.bytes(info), random.bytes(cipher)]
        };
        keys.push(key);
    }
    keys
}

/// A form that a body with these pairs can have.
fn form(random: &mut Random, pairs: &[Pair]) -> Form {
    if pairs.is_empty() && random.one_in(2) {
        Form::Old
    } else {
        Form::Today
    }
}

/// Fields a writer accepts, marked as a reader marks them.
pub fn fields(random: &mut Random) -> Fields {
    let version = 1 + random.below(2) as u32;
    let first = version == 1;
    let content_type = 1 + random.below(2) as u32;
    let mut fields = Fields {
        version,
        message_type: if first { 0x80 } else { 0 },
        suite: suite_of(random, version),
        id: random.bytes(if first { 16 } else { 32 }),
        pairs: pairs(random, 20),
        keys: keys(random, 12),
        content_type,
        iv_length: if first { 12 } else { 0 },
        frame_length: frame_length(random, content_type),
        form: Form::Today.mark(),
        suite_data: if first { Vec::new() } else { random.bytes(32) },
    };
    fields.form = form(random, &fields.pairs).mark();
    fields
}
