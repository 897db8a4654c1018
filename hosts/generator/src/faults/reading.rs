//! A request to read a body, or one of its sections alone.

use super::Draft;
use crate::fields::{back, front, Fields};
use crate::image::{keys, keys_with, pairs_length, section, section_with, Form, Image};
use crate::large::plain;
use crate::Pair;

/// A run of reads. A read is named by its area and its number there, as
/// `Image::stops` counts them: in a context section the length, the whole
/// section, the count, then four a pair; in a key section the count, then six
/// a key.
#[derive(Clone, Copy, Debug, PartialEq, Eq, PartialOrd, Ord)]
pub enum Area {
    Front,
    Context,
    Keys,
    Back,
}

/// Bytes in front of what is read, so that no position is right by being
/// counted from the wrong place.
pub(super) const BEFORE: usize = 3;

/// Two pairs and two keys, whole, with tables that just hold them.
#[derive(Clone, Debug, PartialEq)]
pub struct ReadDraft {
    areas: &'static [Area],
    pub fields: Fields,
    pub version_byte: Option<u8>,
    pub section_length: Option<u16>,
    pub pair_count: Option<u16>,
    without_pairs: bool,
    without_keys: bool,
    /// Keys whose parts are all empty, behind the others.
    pub empty_keys: u16,
    pub reserved: [u8; 4],
    cut: Option<(Area, usize)>,
    pub start: u64,
    pub max: Option<u64>,
    pub policy: u32,
    pub pair_numbers: usize,
    pub key_numbers: usize,
    pub asked: Vec<u8>,
    pub required: Vec<u32>,
    pub room: usize,
}

/// Where required keys have their places: those of both pairs, and one that
/// no pair has.
pub const REQUIRED_TEXT: &[u8] = b"linelangnone";

fn sound_pairs() -> Vec<Pair> {
    vec![
        (b"lang".to_vec(), b"cy-GB".to_vec()),
        (b"line".to_vec(), b"first".to_vec()),
    ]
}

/// Fields of a version. All keys are of one length, and all values, so that a
/// fault that is put over another moves nothing.
pub(super) fn sound_fields(version: u32) -> Fields {
    let key = |parts: [&[u8]; 3]| parts.map(|part| part.to_vec());
    Fields {
        pairs: sound_pairs(),
        keys: vec![key([b"p1", b"a", b"abc"]), key([b"p2", b"b", b"def"])],
        ..plain(version)
    }
}

impl ReadDraft {
    fn new(areas: &'static [Area], version: u32) -> ReadDraft {
        let fields = sound_fields(version);
        ReadDraft {
            areas,
            version_byte: None,
            section_length: None,
            pair_count: None,
            without_pairs: false,
            without_keys: false,
            empty_keys: 0,
            reserved: [0; 4],
            cut: None,
            start: BEFORE as u64,
            max: Some(fields.keys.len() as u64),
            policy: 0,
            pair_numbers: 4 * fields.pairs.len(),
            key_numbers: 6 * fields.keys.len(),
            asked: fields.pairs[1].0.clone(),
            required: vec![0, 4, 4, 4, 8, 4],
            room: fields.pairs[1].1.len(),
            fields,
        }
    }

    pub fn context() -> ReadDraft {
        ReadDraft::new(&[Area::Context], 1)
    }

    /// A context whose pairs are both required, and an output that just holds
    /// them and their count.
    pub fn only_authenticated() -> ReadDraft {
        let context = ReadDraft::context();
        let room = 2 + pairs_length(&context.fields.pairs);
        ReadDraft { room, ..context }
    }

    pub fn keys() -> ReadDraft {
        ReadDraft::new(&[Area::Keys], 1)
    }

    pub fn body(version: u32) -> ReadDraft {
        const ALL: &[Area] = &[Area::Front, Area::Context, Area::Keys, Area::Back];
        ReadDraft::new(ALL, version)
    }

    fn image(&self, area: Area) -> Image {
        let fields = &self.fields;
        match area {
            Area::Front => front(fields),
            Area::Context => {
                let pairs = self.pairs();
                let right = 2 + pairs_length(pairs) as u16;
                let length = self.section_length.unwrap_or(right);
                let count = self.pair_count.unwrap_or(pairs.len() as u16);
                section_with(pairs, length, count)
            }
            Area::Keys if self.without_keys => keys(&[]),
            Area::Keys => {
                let empty = self.empty_keys;
                let mut image = keys_with(&fields.keys, fields.keys.len() as u16 + empty);
                let end = image.bytes.len();
                // All that such a key has is three lengths of 0.
                image.bytes.resize(end + 6 * usize::from(empty), 0);
                image
            }
            Area::Back => back(fields, self.reserved),
        }
    }

    /// The message, cut a byte before the read that is cut, or whole with
    /// some bytes behind.
    pub fn message(&self) -> Vec<u8> {
        self.followed_by(b"rest")
    }

    /// The same as a draft, at the front of a buffer, whole with so many bytes
    /// behind.
    pub(super) fn draft(&self, behind: usize) -> Vec<u8> {
        self.followed_by(&vec![0xEE; behind]).split_off(BEFORE)
    }

    fn followed_by(&self, behind: &[u8]) -> Vec<u8> {
        let mut message = vec![0xEE; BEFORE];
        for &area in self.areas {
            message.extend(self.image(area).bytes);
        }
        if let Some(byte) = self.version_byte {
            message[BEFORE] = byte;
        }
        match self.cut {
            Some(_) => message.truncate(self.wanted() - 1),
            None => message.extend_from_slice(behind),
        }
        message
    }

    /// Where the read that is cut ends. Of a key that isn't there, the first
    /// byte would be behind the count.
    fn wanted(&self) -> usize {
        let Some((cut, read)) = self.cut else {
            return 0;
        };
        let before = self.areas.iter().take_while(|&&area| area != cut);
        let before: usize = before.map(|&area| self.image(area).bytes.len()).sum();
        let image = self.image(cut);
        let stop = image.stops.get(read).map(|&stop| stop as usize);
        BEFORE + before + stop.unwrap_or(image.bytes.len() + 1)
    }

    /// The message ends a byte before the end of this read; one that ends
    /// before lacks this read as well.
    pub fn cut(&mut self, area: Area, read: usize) {
        let cut = (area, read);
        self.cut = Some(self.cut.map_or(cut, |earlier| earlier.min(cut)));
    }

    /// The section ends a byte before the end of this read, whose bytes are
    /// there; one that ends before goes past its end with this read as well.
    fn end_section_in(&mut self, read: usize) {
        let stop = section(&sound_pairs(), Form::Today).stops[read];
        let length = stop as u16 - 1 - 2;
        let shorter = self.section_length.map_or(length, |now| now.min(length));
        self.section_length = Some(shorter);
    }

    /// It ends in the count of pairs.
    pub fn end_in_count(&mut self) {
        self.end_section_in(2);
    }

    /// It ends in a pair: 0 the key's length, 1 the key, 2 and 3 the value's.
    pub fn end_in_pair(&mut self, pair: usize, read: usize) {
        self.end_section_in(3 + 4 * pair + read);
    }

    /// The message is cut in a key: 0 and 1 the provider ID, 2 and 3 the provider info,
    /// 4 and 5 the ciphertext, the length first.
    pub fn cut_key(&mut self, key: usize, read: usize) {
        self.cut(Area::Keys, 1 + 6 * key + read);
    }

    /// A section of this stored length and count, whatever stands behind.
    pub fn section(&mut self, length: u16, count: u16) {
        self.section_length = Some(length);
        self.pair_count = Some(count);
    }

    /// The old form of an empty context.
    pub fn old_form(&mut self) {
        self.section(2, 0);
        self.without_pairs = true;
    }

    pub(super) fn pairs(&self) -> &[Pair] {
        match self.without_pairs {
            true => &[],
            false => &self.fields.pairs,
        }
    }

    /// A count of 0, and no key behind it.
    pub fn no_key(&mut self) {
        self.without_keys = true;
    }

    /// The stored length goes a byte beyond the pairs.
    pub fn section_too_long(&mut self) {
        self.section_length = Some(3 + pairs_length(&sound_pairs()) as u16);
    }

    /// A key that isn't UTF-8; a later one that repeats it still does.
    pub fn bad_key(&mut self, pair: usize) {
        let key = self.fields.pairs[pair].0.clone();
        let later = self.fields.pairs[pair..].iter_mut();
        for (repeated, _) in later.filter(|pair| pair.0 == key) {
            repeated[0] = 0xFF;
        }
    }

    /// The first key again.
    pub fn repeat_key(&mut self, pair: usize) {
        self.fields.pairs[pair].0 = self.fields.pairs[0].0.clone();
    }

    /// The last required place ends a byte behind the text.
    pub fn required_outside(&mut self) {
        self.required[5] += 1;
    }

    /// The content type and the frame length.
    pub fn content(&mut self, content_type: u32, frame_length: u32) {
        self.fields.content_type = content_type;
        self.fields.frame_length = frame_length;
    }
}

impl Draft for ReadDraft {
    fn position(&self) -> u64 {
        self.wanted() as u64
    }
}
