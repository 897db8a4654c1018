//! Bodies measured and written under a policy: 39 right behind 7 where the
//! policy forbids the version, and otherwise what is answered without one.

use super::body_lengths::{bare, refuses, KEY, PAIR, TEXT};
use super::no_key::{Fault, AFTER, BEFORE};
use super::{Codec, Lent, Under};
use crate::fields::{SUITES_V1, SUITES_V2};
use crate::policies::UNKNOWN;

/// The versions that each policy writes, by its number.
const WRITTEN: [(u32, &[u32]); 4] = [(0, &[1, 2]), (1, &[1]), (2, &[2]), (3, &[2])];

/// The same with numbers that no policy has.
fn policies() -> impl Iterator<Item = (u32, &'static [u32])> {
    let unknown = UNKNOWN.into_iter().map(|policy| (policy, &[2][..]));
    WRITTEN.into_iter().chain(unknown)
}

/// A body of a version with a key, marked as told.
fn sound(version: u32, mark: u32, pairs: &'static [u32]) -> Lent<'static> {
    Lent {
        pairs,
        keys: KEY,
        ..bare(version, mark)
    }
}

/// What is written without a policy.
fn image(codec: &impl Codec, lent: Lent) -> Vec<u8> {
    let mut out = vec![0xEE; 200];
    let length = codec.write_body(lent, &mut out).expect("a sound body");
    out.truncate(length as usize);
    out
}

/// Under a policy that writes the version the image is the same, and 28 is
/// answered to the same outputs. Answers how many answers these are.
fn is_written(codec: &impl Codec, lent: Lent, image: &[u8]) -> u64 {
    let length = image.len();
    assert_eq!(codec.body_len(lent), Ok(length as u64), "{lent:?}");
    let mut short = vec![0xEE; length - 1];
    assert_eq!(codec.write_body(lent, &mut short), Err((28, 0)));
    assert!(short.iter().all(|&byte| byte == 0xEE), "{lent:?}");
    for room in [length, length + 3] {
        let mut out = vec![0xEE; room];
        assert_eq!(codec.write_body(lent, &mut out), Ok(length as u64));
        assert_eq!(out[..length], *image, "{lent:?}");
        assert!(out[length..].iter().all(|&byte| byte == 0xEE), "{lent:?}");
    }
    4
}

/// Bodies of both versions and forms, with a pair and without, and of every
/// suite.
pub fn images(codec: &impl Codec) -> u64 {
    let mut compared = 0;
    let forms = [(0, &[][..]), (0, PAIR), (1, &[]), (0x100, &[])];
    let first = SUITES_V1.map(|suite| (1, suite));
    let second = SUITES_V2.map(|suite| (2, suite));
    for (version, suite) in first.into_iter().chain(second) {
        for (mark, pairs) in forms {
            let mut lent = sound(version, mark, pairs);
            lent.numbers[2] = suite.into();
            let image = image(codec, lent);
            for (policy, versions) in policies() {
                let codec = &Under(codec, policy);
                compared += match versions.contains(&version) {
                    true => is_written(codec, lent, &image),
                    false => refuses(codec, lent, 39),
                };
            }
        }
    }
    compared
}

/// The keys' faults that [`BEFORE`] and [`AFTER`] lack.
const OF_KEYS: [Fault; 3] = [
    (27, |lent| lent.keys = &[6, 2, 8, 1, 12, 65_536]),
    (38, |lent| lent.keys = &[]),
    (16, |lent| lent.keys = &[9, 3, 8, 1, 6, 2]),
];

/// Every fault alone: what stands before the policy is refused under any, and
/// what stands behind it where the version is written.
pub fn faults(codec: &impl Codec) -> u64 {
    let mut text = TEXT.to_vec();
    text.resize(70_000, b'z');
    let mut compared = 0;
    for version in [1, 2] {
        for (number, plant) in BEFORE.into_iter().chain(OF_KEYS).chain(AFTER) {
            let text = &text[..];
            let mut lent = Lent {
                text,
                ..sound(version, 0, PAIR)
            };
            plant(&mut lent);
            for (policy, versions) in policies() {
                let before = [3, 5, 6, 7].contains(&number);
                let own = before || versions.contains(&version);
                let wanted = if own { number } else { 39 };
                compared += refuses(&Under(codec, policy), lent, wanted);
            }
        }
    }
    compared
}

/// Two faults at a time, the policy one of them: with the suite of the other
/// version 7 comes first, with an ID of another length 39 does.
pub fn neighbours(codec: &impl Codec) -> u64 {
    let mut compared = 0;
    for (version, policy) in [(1, 2), (1, 3), (1, 4), (2, 1)] {
        let codec = &Under(codec, policy);
        let sound = sound(version, 0, PAIR);
        let mut other_suite = sound;
        other_suite.numbers[2] = if version == 1 { 0x0478 } else { 0x0378 };
        compared += refuses(codec, other_suite, 7);
        let other_id = Lent {
            id: &[7; 31],
            ..sound
        };
        compared += refuses(codec, other_id, 39);
        let both = Lent {
            id: &[7; 31],
            ..other_suite
        };
        compared += refuses(codec, both, 7);
    }
    compared
}
