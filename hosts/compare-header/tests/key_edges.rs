//! Key sections at each edge of the format, one by one.

use compare_header::answers::Answers;
use compare_header::numbers::number;
use compare_header::scale::seeds;
use compare_header::{compared, reads, writes};
use generator::fields;
use generator::image::{keys, keys_with};
use generator::random::Random;
use generator::tables::lend;
use generator::texts::{bad_sequence, text_of, BAD_KINDS};
use generator::Key;

/// Maxima around the count, those that agree with it in their lowest bits,
/// and the greatest.
fn maxima(count: u64) -> [Option<u64>; 9] {
    [
        None,
        Some(0),
        Some(count.saturating_sub(1)),
        Some(count),
        Some(count + 1),
        Some(count | 1 << 16),
        Some(1 << 32),
        Some(1 << 63),
        Some(u64::MAX),
    ]
}

/// Every maximum with every table length from three numbers short on, the
/// section whole and cut behind its count.
#[test]
fn maxima_and_tables() {
    let mut random = Random::new(81);
    let mut count = 0;
    for _ in seeds(3_000) {
        let list = fields::keys(&mut random, 12);
        let image = keys(&list).bytes;
        let stored = list.len() as u64;
        let numbers = 6 * list.len();
        for max in maxima(stored) {
            for length in numbers.saturating_sub(3)..=numbers + 1 {
                let table = vec![5; length];
                let (answer, _) = reads::read_encrypted_data_keys_section(&image, 0, max, &table);
                let wanted = if max.is_some_and(|max| stored > max) {
                    15
                } else if length < numbers {
                    23
                } else {
                    0
                };
                assert_eq!(number(&answer), wanted);
                let (answer, _) =
                    reads::read_encrypted_data_keys_section(&image[..2], 0, max, &table);
                // The count alone is enough for 15.
                assert!(wanted != 15 || number(&answer) == 15);
                count += 2;
            }
        }
    }
    compared(count, "reads of key sections by maximum and table");
}

/// A count of 0, whatever the maximum, the table and what stands behind; and
/// the cuts of it, which are shortages.
#[test]
fn no_key() {
    let mut random = Random::new(85);
    let mut answers = Answers::default();
    for (max, length) in maxima(0)
        .into_iter()
        .flat_map(|m| (0..=7).map(move |l| (m, l)))
    {
        let table = vec![5; length];
        for behind in 0..=20 {
            let mut message = keys(&[]).bytes;
            message.extend(random.bytes(behind));
            let (answer, _) = reads::read_encrypted_data_keys_section(&message, 0, max, &table);
            answers.met(&answer, 38);
        }
        for cut in [0, 1] {
            let message = &[0, 0][..cut];
            let (answer, _) = reads::read_encrypted_data_keys_section(message, 0, max, &table);
            answers.short(&answer, 2);
        }
    }
    let wanted = [(2, 9 * 8 * 2), (38, 9 * 8 * 21)];
    answers.assert_are("key sections without a key", &wanted);
}

#[test]
fn counts_off_and_equal_keys() {
    let mut random = Random::new(82);
    let mut count = 0;
    for _ in seeds(10_000) {
        let mut list = fields::keys(&mut random, 6);
        list.push(list[0].clone());
        let right = list.len() as u16;
        for stored in right.saturating_sub(2)..=right + 2 {
            let mut message = keys_with(&list, stored).bytes;
            let behind = random.index(12);
            message.extend(random.bytes(behind));
            let table = vec![5; 6 * list.len() + 12];
            let (answer, _) = reads::read_encrypted_data_keys_section(&message, 0, None, &table);
            match stored {
                0 => assert_eq!(number(&answer), 38),
                _ => assert!(stored > right || answer.is_ok()),
            }
            count += 1;
        }
    }
    compared(count, "reads of equal keys with counts off");
}

/// Each kind of sequence that isn't UTF-8: refused in a provider ID, and no
/// matter in the other parts.
#[test]
fn every_kind_of_bad_text() {
    let mut random = Random::new(83);
    let mut count = 0;
    for _ in seeds(200) {
        for kind in BAD_KINDS {
            for length in 0..40 {
                let mut bad = text_of(&mut random, length);
                bad.extend(bad_sequence(&mut random, kind));
                for part in 0..3 {
                    let mut key: Key = [b"p".to_vec(), Vec::new(), b"c".to_vec()];
                    key[part].clone_from(&bad);
                    let list = [[b"p".to_vec(), Vec::new(), Vec::new()], key];
                    let image = keys(&list).bytes;
                    let wanted = if part == 0 { 16 } else { 0 };
                    let (answer, _) =
                        reads::read_encrypted_data_keys_section(&image, 0, None, &[5; 12]);
                    assert_eq!(number(&answer), wanted, "{kind:?}");
                    let lent = lend(&mut random, &[], &list);
                    let (answer, _) =
                        writes::write_encrypted_data_keys_section(&lent.text, &lent.keys, &image);
                    assert_eq!(number(&answer), wanted, "{kind:?}");
                    count += 2;
                }
            }
        }
    }
    compared(count, "keys with bytes that aren't UTF-8");
}

/// As many keys as a section can count, all empty, and one part of 65,535
/// bytes; both read and written.
#[test]
fn the_most_and_the_longest() {
    let mut random = Random::new(84);
    let most: Vec<Key> = vec![Key::default(); 65_535];
    let longest: Vec<Key> = (0..3)
        .map(|part| {
            let mut key = Key::default();
            key[part] = text_of(&mut random, 65_535);
            key
        })
        .collect();
    let mut count = 0;
    for list in [most, longest] {
        let image = keys(&list).bytes;
        for short in [0, 1] {
            let table = vec![5; 6 * list.len() - short];
            let max = Some(list.len() as u64);
            let (answer, _) = reads::read_encrypted_data_keys_section(&image, 0, max, &table);
            assert_eq!(number(&answer), 23 * short as u32);
        }
        let lent = lend(&mut random, &[], &list);
        let (answer, out) = writes::write_encrypted_data_keys_section(
            &lent.text,
            &lent.keys,
            &vec![0; image.len()],
        );
        assert_eq!(answer, Ok(image.len()));
        assert!(out == image);
        count += 3;
    }
    // One more than can be counted.
    let (answer, _) =
        writes::write_encrypted_data_keys_section(&[], &vec![0; 6 * 65_536], &[0; 16]);
    assert_eq!(number(&answer), 27);
    compared(count + 1, "key sections of the greatest sizes");
}
