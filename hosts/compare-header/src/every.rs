//! Pairs or keys handed to every operation that takes them.

use crate::answers::Answers;
use crate::expected::parts_are;
use crate::numbers::{number, numbers, Answer};
use crate::writes;
use crate::{reads, requests};
use bafirolen::{Draft, Mode};
use generator::fields::{back, front, Fields};
use generator::image::{self, pairs_length, section_with, Form, Image};
use generator::large::plain;
use generator::random::Random;
use generator::tables::{lend, lend_parts, Lent};
use generator::{Key, Pair};

/// How many answers a call of `pairs` counts, of reads and of writes, and one
/// of `keys`.
pub const READS_OF_PAIRS: u64 = 2 + 1 + 2 * 4;
pub const WRITES_OF_PAIRS: u64 = 1 + 2;
pub const USES_OF_PAIRS: u64 = READS_OF_PAIRS + WRITES_OF_PAIRS;
pub const USES_OF_KEYS: u64 = 1 + 1 + 2 * 5;

/// What every read answers, and every write.
#[derive(Clone, Copy)]
pub struct Wanted {
    pub read: u32,
    pub write: u32,
}

impl From<u32> for Wanted {
    /// The same of both.
    fn from(number: u32) -> Wanted {
        Wanted {
            read: number,
            write: number,
        }
    }
}

/// Writes fields whose pairs and keys are lent by tables.
pub fn write_body(fields: &Fields, lent: &Lent, out: &[u8]) -> (Answer<usize>, Vec<u8>) {
    let lent = Draft::new(numbers(&fields.numbers().into()), &fields.id)
        .with_suite_data(&fields.suite_data)
        .with_tables(&lent.text, &lent.pairs, &lent.keys);
    writes::write_header_body(lent, out)
}

/// A section of pairs; the stored length is the greatest where none is right.
pub fn section_of(pairs: &[Pair]) -> Image {
    let length = (2 + pairs_length(pairs)).min(65_535) as u16;
    match pairs.is_empty() {
        true => image::section(pairs, Form::Today),
        false => section_with(pairs, length, pairs.len() as u16),
    }
}

/// A body of fields around these pairs.
fn body_of(fields: &Fields) -> Vec<u8> {
    let mut image = front(fields);
    image.image(&section_of(&fields.pairs));
    image.image(&image::keys(&fields.keys));
    image.image(&back(fields, [0; 4]));
    image.bytes
}

/// Keys and values in the order of a pair table.
pub fn parts_of_pairs(pairs: &[Pair]) -> impl Iterator<Item = &[u8]> {
    pairs.iter().flat_map(|(key, value)| [&key[..], value])
}

/// The parts in the order of a key table.
pub fn parts_of_keys(keys: &[Key]) -> impl Iterator<Item = &[u8]> {
    keys.iter().flatten().map(|part| &part[..])
}

/// Bodies of both versions, read by every reader of the version and written;
/// each answers what is wanted of it.
fn bodies(
    random: &mut Random,
    answers: &mut Answers,
    (pairs, keys): (&[Pair], &[Key]),
    wanted: Wanted,
) {
    for version in [1, 2] {
        let mut fields = plain(version);
        fields.pairs = pairs.to_vec();
        fields.keys = keys.to_vec();
        let image = body_of(&fields);
        let (pair_table, key_table) = (vec![3; 4 * pairs.len()], vec![5; 6 * keys.len()]);
        for request in requests(version) {
            let (answer, tables) =
                reads::read_header_body(&image, 0, request, &pair_table, &key_table);
            answers.met(&answer, wanted.read);
            if wanted.read == 0 {
                parts_are(0, &image, &tables.pairs, parts_of_pairs(pairs));
                parts_are(0, &image, &tables.keys, parts_of_keys(keys));
            }
        }
        let lent = lend(random, pairs, keys);
        let (answer, out) = write_body(&fields, &lent, &vec![0; image.len()]);
        answers.met(&answer, wanted.write);
        assert!(wanted.write != 0 || out == image, "the image of the body");
    }
}

/// The section and bodies of pairs, read and written: each answers what is
/// wanted of it.
pub fn pairs(
    random: &mut Random,
    answers: &mut Answers,
    pairs: &[Pair],
    wanted: impl Into<Wanted>,
) {
    let wanted = wanted.into();
    let image = section_of(pairs).bytes;
    let table = vec![3; 4 * pairs.len()];
    for mode in [Mode::Tolerant, Mode::Strict] {
        let (answer, table) = reads::read_aad_section(&image, 0, mode, &table);
        answers.met(&answer, wanted.read);
        if wanted.read == 0 {
            parts_are(0, &image, &table, parts_of_pairs(pairs));
        }
    }
    let lent = lend(random, pairs, &[]);
    let out = vec![0; image.len()];
    let (answer, out) = writes::write_aad_section(&lent.text, &lent.pairs, &out);
    answers.met(&answer, wanted.write);
    assert!(
        wanted.write != 0 || out == image,
        "the image of the section"
    );
    answers.met(&all_required(random, pairs), wanted.read);
    // A body without a key would be refused for that.
    let key = [b"p".to_vec(), Vec::new(), vec![0xAA]];
    bodies(random, answers, (pairs, &[key]), wanted);
}

/// All pairs as what is only authenticated, their keys required in any order.
pub fn all_required(random: &mut Random, pairs: &[Pair]) -> Answer<usize> {
    let mut keys: Vec<&[u8]> = pairs.iter().map(|pair| &pair.0[..]).collect();
    random.shuffle(&mut keys);
    required(random, pairs, &keys)
}

/// The pairs with these keys as what is only authenticated, into an output
/// that just holds them; accepted, they are the image.
pub fn required(random: &mut Random, pairs: &[Pair], keys: &[&[u8]]) -> Answer<usize> {
    let section = section_of(pairs).bytes;
    let image = image::only_authenticated(pairs, keys.iter().copied());
    let (text, table) = lend_parts(random, keys);
    let out = vec![0x11; image.len()];
    let (answer, out) = writes::write_only_authenticated(&section, 0, &text, &table, &out);
    assert!(
        answer.is_err() || out == image,
        "what is only authenticated"
    );
    answer
}

/// A find in the section of pairs: it answers `wanted`, and if that is 0 the
/// value of the pair that has the key. That pair alone is then only
/// authenticated where the key is required, and none where it isn't found.
pub fn find(answers: &mut Answers, pairs: &[Pair], key: &[u8], wanted: u32) {
    let image = section_of(pairs).bytes;
    answers.met(&reads::find_value(&image, 0, key), wanted);
    if wanted == 0 {
        let pair = pairs.iter().find(|pair| pair.0 == key);
        let (_, value) = pair.expect("a pair with the key");
        assert!(reference::find_part(&image, 0, key) == value, "the value");
    }
    // A longer key has no place in a table.
    if let Ok(length) = u32::try_from(key.len()) {
        one_required(pairs, key, &[0, length], wanted);
    }
}

/// The pair with this key as what is only authenticated; `wanted` is what a
/// find of the key answers.
fn one_required(pairs: &[Pair], key: &[u8], table: &[u32], wanted: u32) {
    let section = section_of(pairs).bytes;
    let out = vec![0x11; section.len()];
    let (answer, out) = writes::write_only_authenticated(&section, 0, key, table, &out);
    match wanted {
        0 | 29 => {
            let only = image::only_authenticated(pairs, [key]);
            assert_eq!(answer, Ok(only.len()));
            assert!(out.starts_with(&only), "the pair with the key");
        }
        _ => assert_eq!(number(&answer), wanted),
    }
}

/// The section and bodies of keys, read and written: each answers `wanted`.
pub fn keys(random: &mut Random, answers: &mut Answers, keys: &[Key], wanted: u32) {
    let image = image::keys(keys).bytes;
    let table = vec![5; 6 * keys.len()];
    let max = Some(keys.len() as u64);
    let (answer, table) = reads::read_encrypted_data_keys_section(&image, 0, max, &table);
    answers.met(&answer, wanted);
    if wanted == 0 {
        parts_are(0, &image, &table, parts_of_keys(keys));
    }
    let lent = lend(random, &[], keys);
    let out = vec![0; image.len()];
    let (answer, out) = writes::write_encrypted_data_keys_section(&lent.text, &lent.keys, &out);
    answers.met(&answer, wanted);
    assert!(wanted != 0 || out == image, "the image of the section");
    bodies(random, answers, (&[], keys), wanted.into());
}
