//! Drafts on generated requests, from which keys are dropped and to which one
//! is added. Each refusal that an operation lists has to come about.

use compare_header::both::Both;
use compare_header::expected::as_expected;
use compare_header::numbers::{number, Answer};
use compare_header::scale::{no_fewer, seeds};
use compare_header::{compared, mends, Coverage};
use generator::large::zeros;
use generator::mending_cases::{add_case, drop_case, AddCase};
use generator::rows::Mend;
use generator::Expected;

/// The buffer afterwards is the one that the request was made with, joined by
/// concatenation alone.
fn is_made(
    seed: u64,
    (answer, after): &(Answer<usize>, Vec<u8>),
    expected: Expected,
    (tail, made): (usize, &[u8]),
) {
    as_expected(seed, answer, expected);
    if expected == Expected::Accepted {
        assert_eq!(*answer, Ok(tail), "seed {seed}");
        assert!(made == after, "seed {seed}: the buffer");
    }
}

#[test]
fn drops() {
    let mut coverage = Coverage::default();
    let (mut count, mut without, mut some) = (0, 0, 0);
    for seed in no_fewer(200_000) {
        let case = drop_case(seed);
        let mended = mends::drop_keys(&case.buffer, &case.provider_id);
        coverage.count("drop keys", number(&mended.0));
        is_made(seed, &mended, case.expected, (case.tail, &case.after));
        match mended.0.is_ok() && mended.1 != case.buffer {
            true => some += 1,
            false => without += u64::from(mended.0.is_ok()),
        }
        count += 1;
    }
    assert!(some > count / 4 && without > count / 6, "{some}, {without}");
    // No seed gives a buffer that is too long.
    let refused = Both.drop_keys(&mut zeros(1 << 32), b"");
    assert_eq!(refused, Err((1, 0)));
    coverage.count("drop keys", 1);
    coverage.print();
    coverage.assert_complete(["drop keys"]);
    compared(count + 1, "drafts from which keys are dropped");
}

fn key(case: &AddCase) -> [&[u8]; 3] {
    case.key.each_ref().map(|part| &part[..])
}

#[test]
fn adds() {
    let mut coverage = Coverage::default();
    // 16 of a key that is there, and of the one that is added, also of one
    // that 27 would be answered of.
    let (mut there, mut added, mut long) = (0, 0, 0);
    let mut count = 0;
    for seed in no_fewer(200_000) {
        let case = add_case(seed);
        let mended = mends::add_key(&case.buffer, key(&case));
        let number = number(&mended.0);
        coverage.count("add key", number);
        is_made(seed, &mended, case.expected, (case.tail, &case.after));
        if number == 16 {
            let text = std::str::from_utf8(&case.key[0]).is_ok();
            there += u64::from(text);
            added += u64::from(!text);
            long += u64::from(!text && case.key[0].len() > 65_535);
        }
        count += 1;
    }
    assert!(there > 0 && added > there && long > 0, "{there}, {added}");
    let refused = Both.add_key(&mut zeros(1 << 32), [&[0xFF], b"", b""]);
    assert_eq!(refused, Err((1, 0)));
    coverage.count("add key", 1);
    coverage.print();
    coverage.assert_complete(["add key"]);
    compared(count + 1, "drafts to which a key is added");
}

/// Buffers of every length up to a few bytes more than the longer draft has:
/// 28 is answered exactly from the draft's end up to the longer one's.
#[test]
fn whatever_the_room() {
    let (mut count, mut short) = (0, 0);
    for seed in seeds(700) {
        let case = add_case(seed ^ 0x0B0F_0000);
        let accepted = matches!(case.expected, Expected::Accepted | Expected::Refused(28, _));
        if !accepted || case.tail > 2_000 {
            continue;
        }
        let taken: usize = case.key.iter().map(|part| 2 + part.len()).sum();
        let mut buffer = case.buffer.clone();
        buffer.resize(case.tail + 3, seed as u8);
        for length in 0..=buffer.len() {
            let (answer, after) = mends::add_key(&buffer[..length], key(&case));
            let wanted = match length {
                _ if length >= case.tail => 0,
                _ if length >= case.tail - taken => 28,
                _ => 2,
            };
            assert_eq!(number(&answer), wanted, "seed {seed}, {length}");
            assert!(wanted > 0 || after.starts_with(&case.after[..case.tail]));
            short += u64::from(wanted == 28);
            count += 1;
        }
    }
    assert!(short > count / 20, "{short} of {count}");
    compared(count, "drafts in buffers of every length");
}
