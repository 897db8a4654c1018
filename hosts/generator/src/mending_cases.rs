//! Requests to drop the keys of a provider from a draft, and to add a key to
//! one.

use crate::drafts::{behind, draft, Drafted};
use crate::fields::{near, Fields};
use crate::large::LONGEST;
use crate::random::Random;
use crate::texts::{bad_text, text, text_of};
use crate::{Expected, Key};

/// A request to drop. Accepted, it leaves `after` in the buffer, and the draft
/// ends at `tail`.
#[derive(Clone, Debug)]
pub struct DropCase {
    pub buffer: Vec<u8>,
    pub provider_id: Vec<u8>,
    pub after: Vec<u8>,
    pub tail: usize,
    pub expected: Expected,
}

/// A request to add; the same of it.
#[derive(Clone, Debug)]
pub struct AddCase {
    pub buffer: Vec<u8>,
    pub key: Key,
    pub after: Vec<u8>,
    pub tail: usize,
    pub expected: Expected,
}

/// The request of a seed to drop keys. What reading the draft refuses decides
/// before 40.
pub fn drop_case(seed: u64) -> DropCase {
    let mut random = Random::new(seed);
    let random = &mut random;
    let Drafted {
        mut fields,
        bytes: mut buffer,
        cut,
        read,
    } = draft(random);
    let provider_id = asked(random, &fields.keys);
    let old_tail = buffer.len();
    if !cut && random.one_in(2) {
        let count = 1 + random.index(40);
        buffer.extend(behind(random, count));
    }
    fields.keys.retain(|key| key[0] != provider_id);
    let mut after = fields.image().bytes;
    let tail = after.len();
    after.resize(old_tail.max(tail), 0);
    after.extend_from_slice(&buffer[old_tail..]);
    let expected = match read {
        Expected::Accepted if fields.keys.is_empty() => Expected::Refused(40, 0),
        other => other,
    };
    DropCase {
        buffer,
        provider_id,
        after,
        tail,
        expected,
    }
}

/// A provider ID to ask for: that of the first key, of the last or of any, one
/// near to it, or bytes of any kind, which may be no text, or longer than an ID
/// can be.
pub fn asked(random: &mut Random, keys: &[Key]) -> Vec<u8> {
    let ids: Vec<&[u8]> = keys.iter().map(|key| &key[0][..]).collect();
    let any = match ids.len() {
        0 => &[],
        count => ids[random.index(count)],
    };
    match random.below(16) {
        0..=2 => ids.first().unwrap_or(&any).to_vec(),
        3..=5 => ids.last().unwrap_or(&any).to_vec(),
        6..=9 => any.to_vec(),
        10 | 11 => near(random, any),
        12 => Vec::new(),
        13 => match random.one_in(2) {
            true => bad_text(random),
            false => [any, &[0xFF]].concat(),
        },
        // Now and then as long as an ID can be, or longer.
        14 if random.one_in(20) => {
            let length = LONGEST + random.index(3);
            text_of(random, length)
        }
        _ => text(random, 20),
    }
}

/// The request of a seed to add a key. What reading the draft refuses decides
/// first, then 16, 27 and 28.
pub fn add_case(seed: u64) -> AddCase {
    let mut random = Random::new(seed);
    let random = &mut random;
    let Drafted {
        fields,
        bytes: mut buffer,
        cut,
        read,
    } = draft(random);
    let (key, fault) = added(random, &fields.keys);
    let taken: usize = key.iter().map(|part| 2 + part.len()).sum();
    let room = match cut {
        true => 0,
        false => room(random, taken),
    };
    buffer.extend(behind(random, room));
    let (after, tail) = longer(fields, &key, &buffer);
    let expected = match (read, fault) {
        (Expected::Accepted, Some(number)) => Expected::Refused(number, 0),
        (Expected::Accepted, None) if room < taken => Expected::Refused(28, 0),
        (other, _) => other,
    };
    AddCase {
        buffer,
        key,
        after,
        tail,
        expected,
    }
}

/// The buffer with the key behind the others, and where the draft ends.
fn longer(mut fields: Fields, key: &Key, buffer: &[u8]) -> (Vec<u8>, usize) {
    fields.keys.push(key.clone());
    let mut after = fields.image().bytes;
    let tail = after.len();
    after.extend_from_slice(buffer.get(tail..).unwrap_or_default());
    (after, tail)
}

/// So many bytes behind the draft: just those that the key takes, more, one too
/// few, none at all, or any number.
fn room(random: &mut Random, taken: usize) -> usize {
    match random.below(12) {
        0 => taken - 1,
        1 => 0,
        2 => random.index(taken),
        3..=6 => taken,
        _ => taken + 1 + random.index(40),
    }
}

/// A key to add, and the number of what is wrong with it.
fn added(random: &mut Random, keys: &[Key]) -> (Key, Option<u32>) {
    let any = match keys.len() {
        0 => Vec::new(),
        count => keys[random.index(count)][0].clone(),
    };
    let (mut id, bad) = match random.below(12) {
        0 => (bad_text(random), true),
        1..=4 => (any, false),
        5 => (near(random, &any), false),
        6 => (Vec::new(), false),
        _ => (text(random, 20), false),
    };
    let (info, ciphertext) = (random.length(40), random.length(64));
    let (mut info, mut ciphertext) = (random.bytes(info), random.bytes(ciphertext));
    if random.one_in(60) {
        let length = LONGEST + random.pick(&[0, 0, 1, 2, 5_000]);
        match random.below(3) {
            // What is put before an ID that isn't UTF-8 doesn't mend it.
            0 => {
                let before = length.saturating_sub(id.len());
                id.splice(..0, text_of(random, before));
            }
            1 => info = random.bytes(length),
            _ => ciphertext = random.bytes(length),
        }
    }
    let key = [id, info, ciphertext];
    let long = key.iter().any(|part| part.len() > LONGEST);
    let number = match (bad, long) {
        (true, _) => Some(16),
        (false, true) => Some(27),
        (false, false) => None,
    };
    (key, number)
}
