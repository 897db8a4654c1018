//! Context sections at each edge of the format, one by one.

use bafirolen::Mode;
use compare_header::numbers::number;
use compare_header::scale::seeds;
use compare_header::{compared, reads, writes};
use generator::fields;
use generator::image::{pairs_length, section, section_with, Form};
use generator::random::Random;
use generator::tables::{lend, lend_parts};
use generator::texts::{bad_sequence, text_of, BAD_KINDS};
use generator::Pair;

const MODES: [Mode; 2] = [Mode::Tolerant, Mode::Strict];

/// Reads in both modes with bytes before and behind, finds each key, writes
/// what is only authenticated, and answers the tolerant reader's number.
fn read(random: &mut Random, section: &[u8], pairs: &[Pair]) -> u32 {
    let before = random.index(9);
    let mut message = random.bytes(before);
    message.extend_from_slice(section);
    let behind = random.index(9);
    message.extend(random.bytes(behind));
    let start = before as u64;
    for (key, _) in pairs {
        let _ = reads::find_value(&message, start, key);
    }
    let keys: Vec<&[u8]> = pairs.iter().map(|(key, _)| &key[..]).collect();
    let (text, required) = lend_parts(random, &keys);
    let out = vec![3; section.len()];
    let (only, _) = writes::write_only_authenticated(&message, start, &text, &required, &out);
    let table = vec![3; 4 * pairs.len() + 2];
    let [tolerant, _] =
        MODES.map(|mode| number(&reads::read_aad_section(&message, start, mode, &table).0));
    // A section may hold more pairs than there were, and need a longer table.
    assert!(tolerant == 22 || number(&only) == tolerant, "{tolerant}");
    tolerant
}

/// The stored length and count of small sections each up to three off.
#[test]
fn lengths_and_counts() {
    let mut random = Random::new(71);
    let (mut count, mut accepted, mut intact) = (0, 0, 0);
    for _ in seeds(3_000) {
        let pairs = fields::pairs(&mut random, 6);
        intact += 1;
        let right = 2 + pairs_length(&pairs) as u16;
        for length in right.saturating_sub(3)..=right + 3 {
            let entries = pairs.len() as u16;
            for stored in entries.saturating_sub(3)..=entries + 3 {
                let image = section_with(&pairs, length, stored);
                accepted += u64::from(read(&mut random, &image.bytes, &pairs) == 0);
                count += 2;
            }
        }
    }
    // Each is intact once, whatever the number of seeds.
    assert!(
        accepted >= intact && accepted < count / 4,
        "{accepted} of {count} accepted, {intact} intact"
    );
    compared(count, "reads of sections with lengths and counts off");
}

/// Each kind of sequence that isn't UTF-8, in a key and in a value, with text
/// of up to a block around it, read and written.
#[test]
fn every_kind_of_bad_text() {
    let mut random = Random::new(72);
    let mut count = 0;
    for _ in seeds(300) {
        for kind in BAD_KINDS {
            for length in 0..40 {
                let mut bad = text_of(&mut random, length);
                bad.extend(bad_sequence(&mut random, kind));
                bad.extend(text_of(&mut random, 5));
                let good = text_of(&mut random, 20);
                for (number, pair) in [(10, (bad.clone(), good.clone())), (11, (good, bad))] {
                    let pairs = [(b"k".to_vec(), Vec::new()), pair];
                    let image = section(&pairs, Form::Today).bytes;
                    assert_eq!(read(&mut random, &image, &pairs), number, "{kind:?}");
                    let lent = lend(&mut random, &pairs, &[]);
                    let (answer, _) = writes::write_aad_section(&lent.text, &lent.pairs, &image);
                    assert_eq!(self::number(&answer), number, "{kind:?}");
                    count += 3;
                }
            }
        }
    }
    compared(count, "pairs with bytes that aren't UTF-8");
}

/// Keys of which each begins the next, in any order; then one a second time.
#[test]
fn keys_that_begin_one_another() {
    let mut random = Random::new(73);
    let mut count = 0;
    for _ in seeds(2_000) {
        let longest = random.index(70);
        let letters = text_of(&mut random, longest);
        let letters: Vec<u8> = letters.iter().map(|byte| byte & 0x7F).collect();
        let mut pairs: Vec<Pair> = (0..=letters.len())
            .map(|length| (letters[..length].to_vec(), vec![b'v'; random.index(4)]))
            .collect();
        random.shuffle(&mut pairs);
        let image = section(&pairs, Form::Today).bytes;
        assert_eq!(read(&mut random, &image, &pairs), 0);
        let again = pairs[random.index(pairs.len())].0.clone();
        let at = random.index(pairs.len() + 1);
        pairs.insert(at, (again, Vec::new()));
        let image = section(&pairs, Form::Today).bytes;
        assert_eq!(read(&mut random, &image, &pairs), 12);
        count += 2 * (2 + pairs.len() as u64);
    }
    compared(count, "reads and finds among keys that begin one another");
}

/// Pairs of up to 65,536 bytes in all, as one pair and as several.
#[test]
fn the_longest_pairs() {
    let mut random = Random::new(74);
    let mut count = 0;
    for total in 65_530..=65_536usize {
        for several in [1, 2, 7, 300] {
            let mut pairs: Vec<Pair> = (1..several)
                .map(|i| (format!("{i}").into_bytes(), text_of(&mut random, 150)))
                .collect();
            let rest = total - pairs_length(&pairs) - 4;
            let key = rest.min(9);
            pairs.push((vec![b'k'; key], text_of(&mut random, rest - key)));
            let wanted = if total < 65_534 { 0 } else { 32 };
            // No stored length can be right above the limit.
            let length = (2 + total).min(65_535) as u16;
            let image = section_with(&pairs, length, pairs.len() as u16).bytes;
            assert_eq!(read(&mut random, &image, &pairs), wanted, "{total}");
            let lent = lend(&mut random, &pairs, &[]);
            for room in [65_537, 65_536, 65_540] {
                let out = vec![0; room];
                let (answer, _) = writes::write_aad_section(&lent.text, &lent.pairs, &out);
                assert!(total > 65_533 || number(&answer) == 28 || number(&answer) == 0);
                assert!(total < 65_534 || number(&answer) == 13);
            }
            count += 5 + pairs.len() as u64;
        }
    }
    compared(count, "reads, finds and writes of the longest pairs");
}

/// A table of each length up to one more than needed, or three short.
#[test]
fn tables() {
    let mut random = Random::new(75);
    let mut count = 0;
    for _ in seeds(5_000) {
        let pairs = fields::pairs(&mut random, 9);
        let image = section(&pairs, Form::Today).bytes;
        let numbers = 4 * pairs.len();
        for length in numbers.saturating_sub(3)..=numbers + 1 {
            let table = vec![3; length];
            let (answer, _) = reads::read_aad_section(&image, 0, Mode::Strict, &table);
            let wanted = if length < numbers { 22 } else { 0 };
            assert_eq!(number(&answer), wanted);
            count += 1;
        }
    }
    compared(count, "reads of sections into tables of each length");
}
