//! A request to write a body, or one of its sections alone.

use super::reading::sound_fields;
use super::Draft;
use crate::fields::{back, front};
use crate::image::{keys, section, Form};
use crate::{Key, Pair};

/// Four pairs and two keys, of parts of four bytes, and an output that just
/// holds what is written. Texts are spoilt in any of them, tables in the last.
#[derive(Clone, Debug, PartialEq)]
pub struct WriteDraft {
    /// Version, type, suite, content type, IV length, frame length and form.
    pub numbers: [u32; 7],
    pub policy: u32,
    pub id: Vec<u8>,
    pub suite_data: Vec<u8>,
    pub text: Vec<u8>,
    pub pairs: Vec<u32>,
    pub keys: Vec<u32>,
    pub room: usize,
}

const PAIRS: usize = 4;
const NUMBERS_A_KEY: usize = 6;
const PART: usize = 4;
const PARTS: usize = 14;
/// Where the text has no UTF-8.
const BAD: u32 = (PART * PARTS) as u32;
/// Where it has 65,536 letters and more.
const LONG: u32 = BAD + PART as u32;

/// The parts of pairs and keys, one behind the other; none is another's copy.
fn parts() -> Vec<Vec<u8>> {
    (0..PARTS)
        .map(|part| vec![b'a' + part as u8; PART])
        .collect()
}

fn places(parts: std::ops::Range<usize>) -> Vec<u32> {
    parts
        .flat_map(|part| [(PART * part) as u32, PART as u32])
        .collect()
}

fn both_keys() -> Vec<u32> {
    places(8..14)
}

impl WriteDraft {
    fn new(version: u32, length: usize) -> WriteDraft {
        let fields = sound_fields(version);
        let mut text = parts().concat();
        text.extend([0xFF; PART]);
        text.extend(vec![b'z'; 65_600]);
        WriteDraft {
            numbers: fields.numbers(),
            policy: 0,
            id: fields.id,
            suite_data: fields.suite_data,
            text,
            pairs: places(0..8),
            keys: both_keys(),
            room: length,
        }
    }

    pub fn context() -> WriteDraft {
        WriteDraft::new(1, section(&pairs(), Form::Today).bytes.len())
    }

    pub fn keys() -> WriteDraft {
        WriteDraft::new(1, keys(&key_list()).bytes.len())
    }

    pub fn body(version: u32) -> WriteDraft {
        let fields = sound_fields(version);
        let mut image = front(&fields);
        image.image(&section(&pairs(), Form::Today));
        image.image(&keys(&key_list()));
        image.image(&back(&fields, [0; 4]));
        WriteDraft::new(version, image.bytes.len())
    }

    /// A body of the old form: without pairs, and marked so.
    pub fn old_body(version: u32) -> WriteDraft {
        let mut draft = WriteDraft::body(version);
        draft.room -= section(&pairs(), Form::Today).bytes.len();
        draft.room += section(&[], Form::Old).bytes.len();
        draft.pairs.clear();
        draft.mark_old();
        draft
    }

    /// The mark of the old form.
    pub fn mark_old(&mut self) {
        self.numbers[6] = Form::Old.mark();
    }

    /// The content type and the frame length.
    pub fn content(&mut self, content_type: u32, frame_length: u32) {
        self.numbers[3] = content_type;
        self.numbers[5] = frame_length;
    }

    /// A part of a table that isn't UTF-8, of the same length.
    pub fn bad_part(table: &mut [u32], part: usize) {
        table[2 * part] = BAD;
    }

    /// A key that isn't UTF-8; a later one that repeats it still does.
    pub fn bad_key(&mut self, pair: usize) {
        let place = self.pairs[4 * pair];
        let later = self.pairs[4 * pair..4 * PAIRS].iter_mut().step_by(4);
        for repeated in later.filter(|start| **start == place) {
            *repeated = BAD;
        }
    }

    /// The first key again.
    pub fn repeat_key(&mut self, pair: usize) {
        self.pairs.copy_within(0..2, 4 * pair);
    }

    /// A table with 65,536 entries, the first of them as they were, and with
    /// what it has beyond whole entries.
    pub fn too_many(table: &mut Vec<u32>, numbers: usize) {
        table.resize(65_536 * numbers + table.len() % numbers, 0);
    }

    /// A place a byte behind the text.
    pub fn outside(table: &mut [u32], part: usize, text: &[u8]) {
        table[2 * part] = (text.len() - PART + 1) as u32;
        table[2 * part + 1] = PART as u32;
    }

    /// A part of at least this length; one that isn't UTF-8 stays that.
    pub fn long_part(table: &mut [u32], part: usize, length: u32) {
        if table[2 * part] != BAD {
            table[2 * part] = LONG;
        }
        table[2 * part + 1] = length.max(table[2 * part + 1]);
    }

    /// No key, and what the table has beyond whole ones. The output just holds
    /// what is left.
    pub fn no_key(&mut self) {
        let whole = self.keys.len() / NUMBERS_A_KEY * NUMBERS_A_KEY;
        let lengths = self.keys.drain(..whole).skip(1).step_by(2);
        let taken: usize = lengths.map(|length| 2 + length as usize).sum();
        self.room = self.room.saturating_sub(taken);
    }

    /// Both keys are put where there is none, to have a fault.
    fn some_key(&mut self) {
        if self.keys.len() < NUMBERS_A_KEY {
            self.keys.splice(..0, both_keys());
        }
    }

    /// The last ciphertext is a byte behind the text.
    pub fn key_outside(&mut self) {
        self.some_key();
        WriteDraft::outside(&mut self.keys, 5, &self.text);
    }

    /// The provider info of the second key is a byte too long.
    pub fn long_key_part(&mut self) {
        self.some_key();
        WriteDraft::long_part(&mut self.keys, 4, 65_536);
    }

    /// A provider ID that isn't UTF-8, if the table has a key.
    pub fn bad_provider(&mut self, key: usize) {
        if self.keys.len() >= NUMBERS_A_KEY {
            WriteDraft::bad_part(&mut self.keys, 3 * key);
        }
    }
}

fn pairs() -> Vec<Pair> {
    let pair = |two: &[Vec<u8>]| (two[0].clone(), two[1].clone());
    parts()[..8].chunks(2).map(pair).collect()
}

fn key_list() -> Vec<Key> {
    let key = |three: &[Vec<u8>]| [three[0].clone(), three[1].clone(), three[2].clone()];
    parts()[8..].chunks(3).map(key).collect()
}

impl Draft for WriteDraft {
    fn position(&self) -> u64 {
        0
    }
}
