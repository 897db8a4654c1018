//! Drafts to be mended or reissued, sound and damaged: header bodies, whose
//! provider IDs are drawn from a few.

use crate::body_cases::{reserved, spoil};
use crate::fields::{back, fields, front, near, Fields};
use crate::headers;
use crate::image::Form;
use crate::key_cases::{self, KeySection};
use crate::large::{plain, LONGEST};
use crate::random::Random;
use crate::sections::{self, Verdict};
use crate::surroundings::flip_bits;
use crate::texts::{text, text_of};
use crate::{Expected, Key};

/// A draft, without what stands behind it.
#[derive(Clone, Debug)]
pub struct Drafted {
    /// What a sound draft, or one that is only cut, was made of.
    pub fields: Fields,
    /// All that there is of the draft.
    pub bytes: Vec<u8>,
    /// Nothing stands behind a draft that is cut.
    pub cut: bool,
    /// What reading it decides.
    pub read: Expected,
}

/// The sample headers, and two with keys whose IDs begin one another.
pub fn samples() -> impl Iterator<Item = Vec<u8>> {
    let several = |version| {
        let key = |id: &[u8]| [id.to_vec(), b"p".to_vec(), id.repeat(2)];
        let mut fields = plain(version);
        fields.keys = [&b"p"[..], b"p1", b"", b"p1"].map(key).into();
        fields.image().bytes
    };
    headers::samples().into_iter().chain([1, 2].map(several))
}

/// Two of three are sound.
pub fn draft(random: &mut Random) -> Drafted {
    match random.below(18) {
        0 | 1 => cut(random),
        2 => flipped(random),
        3..=5 => faulty(random),
        _ => sound(random),
    }
}

/// What a sound draft is made of.
pub fn sound_fields(random: &mut Random) -> Fields {
    let mut fields = fields(random);
    fields.keys = keys(random);
    fields
}

fn sound(random: &mut Random) -> Drafted {
    let fields = sound_fields(random);
    Drafted {
        bytes: fields.image().bytes,
        fields,
        cut: false,
        read: Expected::Accepted,
    }
}

/// Often just at a read's end, or a byte before it.
fn cut(random: &mut Random) -> Drafted {
    let mut draft = sound(random);
    let image = draft.fields.image();
    let whole = image.bytes.len();
    let length = match random.below(3) {
        0 => (random.pick(&image.stops) - random.below(2)).min(whole as u64 - 1) as usize,
        _ => random.index(whole),
    };
    let wanted = image.wanted(0, length as u64);
    draft.bytes.truncate(length);
    draft.cut = true;
    draft.read = Expected::Refused(2, wanted.expect("a read that the cut meets"));
    draft
}

/// With a few bits turned.
fn flipped(random: &mut Random) -> Drafted {
    let mut draft = sound(random);
    flip_bits(random, &mut draft.bytes);
    draft.read = Expected::Open;
    draft
}

/// The faults of a body's fields, and the order in which a reader meets them;
/// there 8 stands for all of a context section's.
const FAULTS: [u32; 8] = [3, 5, 6, 7, 17, 18, 19, 20];
const ORDER: [u32; 11] = [3, 5, 6, 7, 8, 38, 16, 17, 18, 19, 20];

/// A draft with any number of faults, none included. The first of them in the
/// order of tests decides.
fn faulty(random: &mut Random) -> Drafted {
    let count = random.pick(&[0, 0, 1, 1, 1, 2, 3]);
    let mut faults: Vec<u32> = (0..count).map(|_| random.pick(&FAULTS)).collect();
    let mut fields = fields(random);
    let first = fields.version == 1;
    faults.retain(|fault| first || ![5, 18, 19].contains(fault));
    let kind = match random.below(3) {
        0 => sections::kind(random),
        _ => sections::Kind::Intact,
    };
    let section = sections::build(random, kind);
    let key_kind = match random.below(4) {
        0 => key_cases::kind(random),
        _ => key_cases::Kind::Intact,
    };
    let keys = key_cases::build(random, key_kind);
    fields.pairs = section.pairs.clone();
    fields.form = match section.verdict {
        Verdict::Old => Form::Old.mark(),
        _ => Form::Today.mark(),
    };
    fields.keys = keys.keys.clone();
    let reserved = reserved(random, faults.contains(&18));
    spoil(random, &mut fields, &faults);

    let mut image = front(&fields);
    image
        .image(&section.image)
        .image(&keys.image)
        .image(&back(&fields, reserved));
    Drafted {
        bytes: image.bytes,
        fields,
        cut: false,
        read: first_met(&faults, section.verdict, &keys),
    }
}

/// What the first fault in the order of tests decides.
fn first_met(faults: &[u32], section: Verdict, keys: &KeySection) -> Expected {
    let decides = |step: u32| match (step, section) {
        (8, Verdict::Refused(number)) => Some(Expected::Refused(number, 0)),
        (8, Verdict::Open) => Some(Expected::Open),
        (38, _) if keys.open => Some(Expected::Open),
        (38 | 16, _) if keys.refused == Some(step) => Some(Expected::Refused(step, 0)),
        (number, _) if faults.contains(&number) => Some(Expected::Refused(number, 0)),
        _ => None,
    };
    let met = ORDER.into_iter().find_map(decides);
    met.unwrap_or(Expected::Accepted)
}

/// Provider IDs, of which some begin others, and some are empty.
fn ids(random: &mut Random) -> Vec<Vec<u8>> {
    let mut ids = vec![text(random, 20)];
    for _ in 0..1 + random.index(4) {
        let at = random.index(ids.len());
        let id = match random.below(4) {
            0 => Vec::new(),
            1 => text(random, 20),
            _ => near(random, &ids[at]),
        };
        ids.push(id);
    }
    ids
}

/// One key to a hundred, with a part as long as it can be in one of 150 lists.
fn keys(random: &mut Random) -> Vec<Key> {
    let ids = ids(random);
    let most = match random.below(16) {
        0 => 1,
        1..=10 => 6,
        11..=14 => 20,
        _ => 100,
    };
    let mut keys: Vec<Key> = (0..1 + random.index(most))
        .map(|_| {
            let id = ids[random.index(ids.len())].clone();
            let (info, ciphertext) = (random.length(40), random.length(64));
            [id, random.bytes(info), random.bytes(ciphertext)]
        })
        .collect();
    if random.one_in(150) {
        let key = random.index(keys.len());
        let part = random.pick(&[0, 1, 2, 2]);
        keys[key][part] = text_of(random, LONGEST);
    }
    one_id(random, &mut keys);
    keys
}

/// Now and then all keys get one ID, or all but one.
fn one_id(random: &mut Random, keys: &mut [Key]) {
    let but = match random.below(12) {
        0 => keys.len(),
        1 => random.pick(&[0, keys.len() / 2, keys.len() - 1]),
        _ => return,
    };
    let id = keys[random.index(keys.len())][0].clone();
    let others = keys.iter_mut().enumerate().filter(|(at, _)| *at != but);
    others.for_each(|(_, key)| key[0].clone_from(&id));
}

/// Bytes that stand behind a draft, none of them 00, as those are that a drop
/// leaves.
pub fn behind(random: &mut Random, count: usize) -> Vec<u8> {
    let mut bytes = random.bytes(count);
    bytes.iter_mut().for_each(|byte| *byte = (*byte).max(1));
    bytes
}
