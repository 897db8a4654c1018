//! The leaves, the suites and the earlier keys; starts at every edge.

mod common;

use common::{refusal, report, report_rows};
use generator::random::Random;
use generator::rows::leaves as rows;
use generator::texts::text;
use reference::seen::Seen;
use reference::*;
use std::cmp::Ordering;
use std::collections::BTreeSet;
use std::convert::identity;

#[test]
fn reads_at_every_edge() {
    // The leaves leave refusal 1 to the operations above them.
    let bytes = rows::bytes_at_every_edge(u64::MAX, &rows::LENGTHS, |message, start, n| {
        read_bytes(message, start, n)
            .map(|place| (place.start, place.len))
            .map_err(refusal)
    });
    let numbers = rows::numbers_at_every_edge(u64::MAX, |message, start, n| {
        let answer = match n {
            1 => read_u8(message, start).map(|(value, tail)| (value.into(), tail)),
            2 => read_u16(message, start).map(|(value, tail)| (value.into(), tail)),
            _ => read_u32(message, start).map(|(value, tail)| (value.into(), tail)),
        };
        answer.map_err(refusal)
    });
    report_rows("leaf reads", bytes + numbers, 132);
}

#[test]
fn entries() {
    let read = |bytes: &[u8], start, end| {
        read_entry(bytes, start, end)
            .map(|place| (place.start, place.len))
            .map_err(refusal)
    };
    report_rows("entries", rows::entries(read), 7);
    report_rows("entries within an end", rows::entries_within(read), 32);
    // A sum that 64 bits don't hold lies past every end.
    let far = read_entry(&[0, 0], u64::MAX - 1, Some(u64::MAX));
    assert_eq!(far.map_err(refusal), Err((32, 0)));
}

#[test]
fn writes_keep_what_they_do_not_fill() {
    use rows::writes_keep_what_they_do_not_fill as keeps;
    let entry = |out: &mut [u8], at, part: &[u8]| write_entry(out, at, part).map_err(refusal);
    let bytes = |out: &mut [u8], at, part: &[u8]| write_bytes(out, at, part).map_err(refusal);
    let two = |out: &mut [u8], at, _: &[u8]| write_u16(out, at, 0x1234).map_err(refusal);
    let four = |out: &mut [u8], at, _: &[u8]| write_u32(out, at, 0x1234_5678).map_err(refusal);
    // These say the whole answer.
    let rows = keeps(<[u8]>::to_vec, bytes, identity)
        + keeps(rows::entry, entry, identity)
        + keeps(|_| vec![0x12, 0x34], two, identity)
        + keeps(|_| vec![0x12, 0x34, 0x56, 0x78], four, identity)
        + rows::the_longest_entry(entry, identity);
    report_rows("leaf writes", rows, 146);
}

#[test]
fn eleven_suites() {
    let first = [
        0x0014, 0x0046, 0x0078, 0x0114, 0x0146, 0x0178, 0x0214, 0x0346, 0x0378,
    ];
    let second = [0x0478, 0x0578];
    let mut found = 0;
    for number in 0..=0x1_FFFFu32 {
        let wanted = match number {
            _ if first.contains(&number) => Some(1),
            _ if second.contains(&number) => Some(2),
            _ => None,
        };
        assert_eq!(
            lookup(number).map(|suite| suite.version),
            wanted,
            "{number:x}"
        );
        assert!(lookup(number).is_none_or(|suite| suite.number == number));
        if let Ok(stored) = u16::try_from(number) {
            assert_eq!(Suite::from_stored(stored.to_be_bytes()), lookup(number));
        }
        found += u64::from(wanted.is_some());
    }
    assert_eq!((found, SUITES.len()), (11, 11));
    assert_eq!(
        (Suite::IV_LEN, Suite::TAG_LEN, Suite::COMMIT_LEN),
        (12, 16, 32)
    );
    report("suites", 0x2_0000);
}

#[test]
fn parts_compare_byte_by_byte() {
    let mut random = Random::new(3);
    let mut compared = 0;
    for _ in 0..100_000 {
        let (left, right) = (random.index(4), random.index(4));
        let a: Vec<u8> = (0..left).map(|_| random.pick(&[0, 1, 0xFF])).collect();
        let b: Vec<u8> = (0..right).map(|_| random.pick(&[0, 1, 0xFF])).collect();
        let mut order = Ordering::Equal;
        for i in 0..left.max(right) {
            // A byte that isn't there comes before any that is.
            let (x, y) = (
                a.get(i).map_or(-1, |x| i32::from(*x)),
                b.get(i).map_or(-1, |y| i32::from(*y)),
            );
            if x != y {
                order = if x < y {
                    Ordering::Less
                } else {
                    Ordering::Greater
                };
                break;
            }
        }
        assert_eq!(compare_parts(&a, &b), order, "{a:?} {b:?}");
        assert_eq!(equal_parts(&a, &b), order == Ordering::Equal, "{a:?} {b:?}");
        compared += 1;
    }
    report("parts compared", compared);
}

#[test]
fn earlier_keys_are_known_again() {
    let mut random = Random::new(4);
    let mut compared = 0;
    for _ in 0..5_000 {
        let count = random.index(40);
        let keys: Vec<Vec<u8>> = (0..count).map(|_| text(&mut random, 3)).collect();
        let mut seen = Seen::new();
        let mut set = BTreeSet::new();
        for key in &keys {
            assert_eq!(seen.insert(key), set.insert(key.clone()));
            compared += 1;
        }
    }
    report("earlier keys", compared);
}
