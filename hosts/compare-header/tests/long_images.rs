//! Images longer than 32 bits can count: 65,535 keys share one text of 65,535
//! bytes. An output as long as what 32 bits keep of the length is too short.

use compare_header::answers::Answers;
use compare_header::every::write_body;
use compare_header::writes;
use generator::large::{keys_of_total, length_without_keys, plain, LONGEST};
use generator::tables::Lent;

const FOUR_GIBIBYTES: u64 = 1 << 32;

/// Outputs around what 32 bits keep of a length.
fn rooms(length: u64) -> [usize; 4] {
    let kept = length as u32 as usize;
    [0, kept.saturating_sub(1), kept, kept + 1]
}

fn lent(pairs: Vec<u32>, keys: Vec<u32>) -> Lent {
    Lent {
        text: vec![b'a'; LONGEST],
        pairs,
        keys,
    }
}

/// Every part of every key is the whole text. The section is one byte short of
/// three times 4 GiB, so 32 bits keep 31 and 73 bytes of the bodies.
#[test]
fn every_part_the_longest() {
    let mut answers = Answers::default();
    let lent = lent(Vec::new(), [0, LONGEST as u32].repeat(3 * LONGEST));
    let section = 2 + 3 * LONGEST as u64 * (2 + LONGEST as u64);
    assert_eq!(section, 3 * FOUR_GIBIBYTES - 1);
    for (version, kept) in [(1, 31), (2, 73)] {
        let length = length_without_keys(version) + section;
        assert_eq!(length, 3 * FOUR_GIBIBYTES + kept as u64);
        let (answer, _) = write_body(&plain(version), &lent, &vec![0x11; kept]);
        answers.met(&answer, 28);
    }
    let (answer, _) = writes::write_encrypted_data_keys_section(&lent.text, &lent.keys, &[0x11; 9]);
    answers.met(&answer, 28);
    answers.assert_are("writes of images of 12.9 GB", &[(28, 3)]);
}

/// Key sections and bodies of 4 GiB and of 8 GiB, and of a few bytes less and
/// more.
#[test]
fn around_four_and_eight_gibibytes() {
    let mut answers = Answers::default();
    let totals = [1, 2].map(|times| times * FOUR_GIBIBYTES - 1).into_iter();
    let totals: Vec<u64> = totals
        .flat_map(|below| [0, 1, 2, 32, 101, 65_536, 120_001].map(|more| below + more))
        .collect();
    let mut requests = 0;
    for &total in &totals {
        // What is one byte short of 4 GiB fits no output that can be had here.
        let rooms = match total as u32 {
            u32::MAX => [0, 1, 100, 1_000],
            _ => rooms(total),
        };
        let section = lent(Vec::new(), keys_of_total(total));
        for room in rooms {
            let out = vec![0x11; room];
            let (answer, _) =
                writes::write_encrypted_data_keys_section(&section.text, &section.keys, &out);
            answers.met(&answer, 28);
            for version in [1, 2] {
                let keys = keys_of_total(total - length_without_keys(version));
                let (answer, _) = write_body(&plain(version), &lent(Vec::new(), keys), &out);
                answers.met(&answer, 28);
            }
            requests += 1;
        }
    }
    assert_eq!(requests, 4 * totals.len() as u64);
    answers.assert_are("writes of images around 4 and 8 GiB", &[(28, 3 * requests)]);
}

/// A table of pairs that take just `total` bytes: keys of five digits that
/// differ, and one text for all values.
fn pairs_of_total(count: usize, total: u64) -> Lent {
    let mut text: Vec<u8> = (0..count)
        .flat_map(|number| format!("{number:05}").into_bytes())
        .collect();
    let values = text.len() as u32;
    text.extend(vec![b'v'; LONGEST]);
    let mut rest = total - 9 * count as u64;
    let mut pairs = Vec::new();
    for number in 0..count as u32 {
        let length = rest.min(LONGEST as u64) as u32;
        rest -= u64::from(length);
        pairs.extend([5 * number, 5, values, length]);
    }
    assert_eq!(rest, 0, "the values take more");
    let keys = Vec::new();
    Lent { text, pairs, keys }
}

/// Pairs whose bytes would be few if 16 or 32 bits counted them: 13, by the
/// section's writer and the body's.
#[test]
fn pairs_of_more_bytes_than_a_section_counts() {
    let mut answers = Answers::default();
    let few = [0, 1, 9, 40, 65_533].map(|more| (4, (1 << 16) + more));
    let many = [(65_535, FOUR_GIBIBYTES + 9)];
    for (count, total) in few.into_iter().chain(many) {
        let lent = pairs_of_total(count, total);
        let out = vec![0x11; 65_600];
        let (answer, _) = writes::write_aad_section(&lent.text, &lent.pairs, &out);
        answers.met(&answer, 13);
        let (answer, _) = write_body(&plain(1), &lent, &out);
        answers.met(&answer, 13);
    }
    answers.assert_are("writes of pairs of too many bytes", &[(13, 12)]);
}
