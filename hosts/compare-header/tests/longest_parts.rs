//! Parts of just 65,535 bytes, the most that an entry stores, and of a byte
//! less and more; and parts of a fixed length that are longer by what 8 or 16
//! bits don't keep.

use compare_header::answers::Answers;
use compare_header::every::{self, write_body, Wanted, USES_OF_KEYS, USES_OF_PAIRS};
use compare_header::every::{READS_OF_PAIRS, WRITES_OF_PAIRS};
use compare_header::writes;
use generator::large::plain;
use generator::random::Random;
use generator::tables::lend;
use generator::texts::text_of;
use generator::{Key, Pair};

const LENGTHS: [usize; 5] = [32_768, 65_533, 65_534, 65_535, 65_536];

/// A key with one part that has this length, among other keys.
fn keys(random: &mut Random, part: usize, length: usize) -> Vec<Key> {
    let small = [b"p".to_vec(), vec![1], vec![2, 3]];
    let mut long = small.clone();
    long[part] = match part {
        0 => text_of(random, length),
        _ => random.bytes(length),
    };
    vec![small.clone(), long, small]
}

/// Up to 65,535 bytes every part of a key is read and written; above, it can
/// only be asked to be written, and is refused by 27.
#[test]
fn of_keys() {
    let mut random = Random::new(161);
    let mut answers = Answers::default();
    for length in LENGTHS {
        for part in 0..3 {
            let keys = keys(&mut random, part, length);
            if length <= 65_535 {
                every::keys(&mut random, &mut answers, &keys, 0);
                continue;
            }
            let lent = lend(&mut random, &[], &keys);
            let out = vec![0x11; 70_000];
            let (answer, _) =
                writes::write_encrypted_data_keys_section(&lent.text, &lent.keys, &out);
            answers.met(&answer, 27);
            for version in [1, 2] {
                let (answer, _) = write_body(&plain(version), &lent, &out);
                answers.met(&answer, 27);
            }
        }
    }
    let wanted = [(0, 4 * 3 * USES_OF_KEYS), (27, 3 * 3)];
    answers.assert_are("keys with parts of up to 65,536 bytes", &wanted);
}

/// All parts of three keys at once: texts, and bytes that are none.
#[test]
fn every_part_of_several_keys() {
    let mut random = Random::new(162);
    let mut answers = Answers::default();
    for length in [65_534, 65_535] {
        let key = |random: &mut Random| {
            let provider = text_of(random, length);
            [provider, random.bytes(length), random.bytes(length)]
        };
        let mut keys: Vec<Key> = (0..3).map(|_| key(&mut random)).collect();
        every::keys(&mut random, &mut answers, &keys, 0);
        keys[2][0][length - 1] = 0xC3;
        every::keys(&mut random, &mut answers, &keys, 16);
    }
    let wanted = [(0, 2 * USES_OF_KEYS), (16, 2 * USES_OF_KEYS)];
    answers.assert_are("keys with all parts of 65,535 bytes", &wanted);
}

/// A pair with such a key or value takes too many bytes to be written (13), and
/// bytes that aren't UTF-8 are refused before (10, 11). Read, it goes past its
/// section (32), whatever its bytes are.
#[test]
fn of_pairs() {
    let mut random = Random::new(163);
    let mut answers = Answers::default();
    for length in LENGTHS {
        for key_is_long in [true, false] {
            let mut long = text_of(&mut random, length);
            let pair = |long: &[u8]| match key_is_long {
                true => [(b"a".to_vec(), b"b".to_vec()), (long.to_vec(), Vec::new())],
                false => [(b"a".to_vec(), b"b".to_vec()), (Vec::new(), long.to_vec())],
            };
            let not_text = if key_is_long { 10 } else { 11 };
            let pairs = pair(&long);
            long[length - 1] = 0xFF;
            for (pairs, write) in [(pairs, 13), (pair(&long), not_text)] {
                let wanted = match (length, write) {
                    (65_536, _) => {
                        write_alone(&mut random, &mut answers, &pairs, 27);
                        continue;
                    }
                    (32_768, 13) => Wanted::from(0),
                    (32_768, _) => Wanted::from(write),
                    _ => Wanted { read: 32, write },
                };
                every::pairs(&mut random, &mut answers, &pairs, wanted);
            }
        }
    }
    let wanted = [
        (0, 2 * USES_OF_PAIRS),
        (10, USES_OF_PAIRS + 3 * WRITES_OF_PAIRS),
        (11, USES_OF_PAIRS + 3 * WRITES_OF_PAIRS),
        (13, 2 * 3 * WRITES_OF_PAIRS),
        (27, 4 * 3),
        (32, 2 * 2 * 3 * READS_OF_PAIRS),
    ];
    answers.assert_are("pairs with parts of up to 65,536 bytes", &wanted);
}

fn write_alone(random: &mut Random, answers: &mut Answers, pairs: &[Pair], wanted: u32) {
    let lent = lend(random, pairs, &[]);
    let out = vec![0x11; 70_000];
    let (answer, _) = writes::write_aad_section(&lent.text, &lent.pairs, &out);
    answers.met(&answer, wanted);
    for version in [1, 2] {
        let (answer, _) = write_body(&plain(version), &lent, &out);
        answers.met(&answer, wanted);
    }
}

/// Lengths whose lowest bits are those of the right one.
fn longer(right: usize) -> [usize; 6] {
    [256, 512, 65_280, 65_536, 131_072, 1 << 20].map(|more| right + more)
}

/// The ID, the suite data, the IV and the tag have one length each.
#[test]
fn of_fixed_length() {
    let mut answers = Answers::default();
    let out = vec![0x11; 70_000];
    let a_key = lend(&mut Random::new(164), &[], &[Key::default()]);
    for version in [1, 2] {
        let mut fields = plain(version);
        let (id, suite_data) = (fields.id.len(), fields.suite_data.len());
        for length in longer(id).into_iter().chain([65_535, 65_536]) {
            fields.id = vec![7; length];
            answers.met(&write_body(&fields, &a_key, &out).0, 24);
        }
        fields.id = vec![7; id];
        for length in longer(suite_data).into_iter().chain([65_535, 65_536]) {
            fields.suite_data = vec![7; length];
            answers.met(&write_body(&fields, &a_key, &out).0, 25);
        }
        let suite = fields.suite;
        for length in longer(12).into_iter().chain([65_535, 65_536]) {
            let iv = vec![7; length];
            answers.met(
                &writes::write_header_auth_tag(suite, &iv, &[8; 16], &out).0,
                19,
            );
        }
        for length in longer(16).into_iter().chain([65_535, 65_536]) {
            let tag = vec![7; length];
            answers.met(
                &writes::write_header_auth_tag(suite, &[8; 12], &tag, &out).0,
                30,
            );
        }
    }
    let wanted = [19, 24, 25, 30].map(|number| (number, 2 * 8));
    answers.assert_are("writes of parts longer than fixed", &wanted);
}
