//! A text longer than 32 bits can count, and parts that lie across that bound:
//! start and length are 32-bit numbers, their sum is inside the text.

use bafirolen::Draft;
use compare_header::answers::Answers;
use compare_header::numbers::numbers;
use compare_header::writes;
use generator::image::{keys, only_authenticated, section, Form};
use generator::large::{plain, zeros};
use generator::{Key, Pair};

const BOUND: usize = 1 << 32;

/// The part across the bound, and one that ends with the text.
const ACROSS: (u32, u32) = (0xFFFF_FFF0, 0x20);
const LAST: (u32, u32) = (0xFFFF_FFFF, 101);

/// Zeros but around the bound.
fn text() -> Vec<u8> {
    let mut text = zeros(BOUND + 100);
    for (i, byte) in text[BOUND - 16..BOUND + 40].iter_mut().enumerate() {
        *byte = b'A' + i as u8;
    }
    text
}

fn part(text: &[u8], (start, length): (u32, u32)) -> Vec<u8> {
    text[start as usize..start as usize + length as usize].to_vec()
}

fn pairs_at(text: &[u8], table: &[u32]) -> Vec<Pair> {
    let pair = |t: &[u32]| (part(text, (t[0], t[1])), part(text, (t[2], t[3])));
    table.chunks_exact(4).map(pair).collect()
}

fn keys_at(text: &[u8], table: &[u32]) -> Vec<Key> {
    let part = |t: &[u32], at| part(text, (t[at], t[at + 1]));
    let key = |t: &[u32]| [part(t, 0), part(t, 2), part(t, 4)];
    table.chunks_exact(6).map(key).collect()
}

/// The section's writer and the body's in both versions; where they accept,
/// the images are those of the parts.
fn write_pairs(answers: &mut Answers, text: &[u8], pairs: &[u32], wanted: u32) {
    let (answer, out) = writes::write_aad_section(text, pairs, &[0x11; 900]);
    answers.met(&answer, wanted);
    if wanted == 0 {
        let image = section(&pairs_at(text, pairs), Form::Today).bytes;
        assert!(out.starts_with(&image), "the section's image");
    }
    write_bodies(answers, text, pairs, &KEYS[..6], wanted);
}

fn write_keys(answers: &mut Answers, text: &[u8], table: &[u32], wanted: u32) {
    let (answer, out) = writes::write_encrypted_data_keys_section(text, table, &[0x11; 900]);
    answers.met(&answer, wanted);
    if wanted == 0 {
        let image = keys(&keys_at(text, table)).bytes;
        assert!(out.starts_with(&image), "the section's image");
    }
    write_bodies(answers, text, &[], table, wanted);
}

fn write_bodies(answers: &mut Answers, text: &[u8], pairs: &[u32], keys: &[u32], wanted: u32) {
    for version in [1, 2] {
        let mut fields = plain(version);
        let draft = Draft::new(numbers(&fields.numbers().into()), &fields.id)
            .with_suite_data(&fields.suite_data)
            .with_tables(text, pairs, keys);
        let (answer, out) = writes::write_header_body(draft, &[0x11; 1_000]);
        answers.met(&answer, wanted);
        if wanted == 0 {
            fields.pairs = pairs_at(text, pairs);
            fields.keys = keys_at(text, keys);
            let image = fields.image().bytes;
            assert!(out.starts_with(&image), "the body's image");
        }
    }
}

/// Tables in which one place in turn is another than in a small table.
fn with_place(small: &[u32], (start, length): (u32, u32)) -> impl Iterator<Item = Vec<u32>> + '_ {
    (0..small.len()).step_by(2).map(move |at| {
        let mut table = small.to_vec();
        table[at..at + 2].copy_from_slice(&[start, length]);
        table
    })
}

const PAIRS: [u32; 8] = [0, 1, 0, 5, 0, 2, 0, 0];
const KEYS: [u32; 12] = [0, 1, 0, 5, 0, 2, 0, 0, 7, 7, 0, 1];

/// The text whole, just long enough, a byte short, and at the bound.
#[test]
fn places_across_the_bound() {
    let text = text();
    let mut answers = Answers::default();
    let rows = [
        (BOUND + 100, ACROSS, 0),
        (BOUND + 16, ACROSS, 0),
        (BOUND + 15, ACROSS, 26),
        (BOUND, ACROSS, 26),
        (BOUND - 1, ACROSS, 26),
        (BOUND + 100, LAST, 0),
        (BOUND + 99, LAST, 26),
        (BOUND, (0xFFFF_FFF0, 0x10), 0),
        (BOUND, (0xFFFF_FFFF, 1), 0),
        (BOUND - 1, (0xFFFF_FFFF, 1), 26),
        (BOUND + 1, (0xFFFF_FFFF, 2), 0),
        (BOUND, (0xFFFF_FFFF, 2), 26),
    ];
    for (length, place, wanted) in rows {
        for pairs in with_place(&PAIRS, place) {
            write_pairs(&mut answers, &text[..length], &pairs, wanted);
        }
        for keys in with_place(&KEYS, place) {
            write_keys(&mut answers, &text[..length], &keys, wanted);
        }
    }
    // Three writers, and ten places.
    answers.assert_are("writes of places across 4 GiB", &[(0, 180), (26, 180)]);
}

/// What the parts hold is looked at across the bound: a character that lies
/// on both sides, half of one, and equal keys.
#[test]
fn bytes_across_the_bound() {
    let mut text = text();
    let mut answers = Answers::default();
    let (start, length) = ACROSS;
    let equal = [start, length, 0, 0, 0, 1, 0, 0, start, length, 0, 0];
    write_pairs(&mut answers, &text, &equal, 12);
    for (pair, good) in [
        ([0xC3, 0x28], false),
        ([0x41, 0xA9], false),
        ([0xC3, 0xA9], true),
    ] {
        text[BOUND - 1..BOUND + 1].copy_from_slice(&pair);
        let number = |wanted| if good { 0 } else { wanted };
        write_pairs(&mut answers, &text, &[start, length, 0, 1], number(10));
        write_pairs(&mut answers, &text, &[0, 1, start, length], number(11));
        write_keys(
            &mut answers,
            &text,
            &[start, length, 0, 1, 0, 1],
            number(16),
        );
        write_keys(
            &mut answers,
            &text,
            &[0, 1, start, length, start, length],
            0,
        );
    }
    let wanted = [(0, 18), (10, 6), (11, 6), (12, 3), (16, 6)];
    answers.assert_are("writes of what lies across 4 GiB", &wanted);
}

/// A part that is as long as can be, and one that is a byte longer.
#[test]
fn the_longest_across_the_bound() {
    let text = text();
    let mut answers = Answers::default();
    let start = 0xFFFF_0064;
    write_pairs(&mut answers, &text, &[0, 0, start, 65_535], 13);
    write_pairs(&mut answers, &text, &[0, 0, start, 65_536], 27);
    write_keys(&mut answers, &text, &[0, 0, start, 65_536, 0, 0], 27);
    let wanted = [(13, 3), (27, 6)];
    answers.assert_are("writes of the longest parts across 4 GiB", &wanted);
}

/// A section of four pairs whose keys stand at the text's end, across the
/// bound, before the bound, and at the text's front.
fn section_of_parts(text: &[u8]) -> (Vec<u8>, [Pair; 4]) {
    let places = [LAST, ACROSS, (0xFFFF_FFF0, 0x10), (0, 2)];
    let pairs = places.map(|place| (part(text, place), vec![b'v'; 3]));
    (section(&pairs, Form::Today).bytes, pairs)
}

/// How much of the text is lent, the required places, and the answer.
type Required<'a> = (usize, &'a [(u32, u32)], u32);

/// Keys that are required by places across the bound; a place of 4 GiB is
/// inside and no key.
#[test]
fn required_across_the_bound() {
    let text = text();
    let (section, pairs) = section_of_parts(&text);
    let mut answers = Answers::default();
    let rows: [Required; 14] = [
        (BOUND + 100, &[ACROSS], 0),
        (BOUND + 16, &[ACROSS, (0, 2), ACROSS], 0),
        (BOUND + 15, &[ACROSS], 31),
        (BOUND, &[(0, 2), ACROSS], 31),
        (BOUND - 1, &[ACROSS, (0, 2)], 31),
        (BOUND + 100, &[LAST, ACROSS, (0, 2), (0xFFFF_FFF0, 0x10)], 0),
        (BOUND + 99, &[LAST], 31),
        (BOUND, &[(0xFFFF_FFF0, 0x10)], 0),
        (BOUND - 1, &[(0xFFFF_FFFF, 1)], 31),
        (BOUND - 1, &[(0xFFFF_FFFF, 0), (0, 0xFFFF_FFFF)], 0),
        (BOUND, &[(1, 0xFFFF_FFFF)], 0),
        (BOUND, &[(2, 0xFFFF_FFFF)], 31),
        (BOUND + 100, &[(101, 0xFFFF_FFFF)], 0),
        (BOUND + 100, &[(102, 0xFFFF_FFFF)], 31),
    ];
    for (length, places, wanted) in rows {
        let text = &text[..length];
        let required: Vec<u32> = places.iter().flat_map(|&(at, len)| [at, len]).collect();
        let out = [0x11; 300];
        let (answer, out) = writes::write_only_authenticated(&section, 0, text, &required, &out);
        answers.met(&answer, wanted);
        if let Ok(length) = answer {
            let keys = places
                .iter()
                .map(|&(at, len)| &text[at as usize..][..len as usize]);
            assert!(
                out[..length] == only_authenticated(&pairs, keys),
                "{places:?}"
            );
        }
    }
    answers.assert_are("required places across 4 GiB", &[(0, 7), (31, 7)]);
}
