//! Sound headers read under a policy, whole and cut: 39 right behind the suite
//! where the policy forbids the version, and otherwise what is answered without
//! a policy.

use super::headers::header_v2;
use super::{Asked, Body, Codec, Refused, Under};
use crate::fields::{SUITES_V1, SUITES_V2};
use crate::headers::{header_h, header_h_at_four_gibibytes};
use crate::policies::UNKNOWN;

const FORBIDDEN: Refused = (39, 0);

/// The versions that each policy reads, by its number.
const READ: [(u32, &[u32]); 4] = [(0, &[1, 2]), (1, &[1, 2]), (2, &[1, 2]), (3, &[2])];

/// The same with numbers that no policy has.
pub(super) fn policies() -> impl Iterator<Item = (u32, &'static [u32])> {
    let unknown = UNKNOWN.into_iter().map(|policy| (policy, &[2][..]));
    READ.into_iter().chain(unknown)
}

/// How many numbers of policies there are.
pub const NUMBERS: u64 = (READ.len() + UNKNOWN.len()) as u64;

/// The readers of a version: of either and of one, tolerant and strict.
pub(super) fn readers(version: u32) -> [Asked; 4] {
    [(0, false), (0, true), (version, false), (version, true)]
        .map(|(version, strict)| Asked::new(version, strict))
}

/// The answer of a reader that is lent tables of so many numbers, which keep
/// where it refuses.
pub(super) fn read(
    codec: &impl Codec,
    message: &[u8],
    asked: Asked,
    numbers: (usize, usize),
) -> Result<Body, Refused> {
    let (mut pairs, mut keys) = (vec![7; numbers.0], vec![7; numbers.1]);
    let answer = codec.read_body(message, asked, &mut pairs, &mut keys);
    if answer.is_err() {
        let kept = pairs.iter().chain(&keys).all(|&number| number == 7);
        assert!(kept, "{asked:?}: {answer:?}");
    }
    answer
}

/// A header, and what is read of it.
pub(super) struct Header {
    pub bytes: Vec<u8>,
    body: Body,
    pairs: &'static [u32],
    keys: &'static [u32],
    /// Where each of its reads ends; the suite's is the third, or the second.
    stops: &'static [u64],
}

/// Header H, or one of version 2.
pub(super) fn header(version: u32) -> Header {
    match version {
        1 => Header {
            bytes: header_h(),
            body: Body {
                numbers: [1, 0x80, 0x0178, 2, 12, 4096, 0],
                id: (4, 16),
                pairs: 1,
                keys: 1,
                suite_data: (0, 0),
                tail: 58,
            },
            pairs: &[26, 4, 32, 2],
            keys: &[38, 2, 42, 1, 45, 3],
            stops: &[
                1, 2, 4, 20, 22, 34, 36, 38, 40, 42, 43, 45, 48, 49, 53, 54, 58,
            ],
        },
        _ => Header {
            bytes: header_v2(),
            body: Body {
                numbers: [2, 0, 0x0578, 1, 0, 0, 0],
                id: (3, 32),
                pairs: 0,
                keys: 1,
                suite_data: (53, 32),
                tail: 85,
            },
            pairs: &[],
            keys: &[41, 1, 44, 0, 46, 2],
            stops: &[1, 3, 35, 37, 39, 41, 42, 44, 46, 48, 49, 53, 85],
        },
    }
}

/// Whole headers. The reader of the other version answers 4, whatever the
/// policy.
pub fn whole(codec: &impl Codec) -> u64 {
    let mut compared = 0;
    for (policy, versions) in policies() {
        let codec = &Under(codec, policy);
        for version in [1, 2] {
            let header = header(version);
            for asked in readers(version) {
                let (mut pairs, mut keys) = ([7; 5], [7; 7]);
                let answer = codec.read_body(&header.bytes, asked, &mut pairs, &mut keys);
                let (mut wanted_pairs, mut wanted_keys) = ([7; 5], [7; 7]);
                if versions.contains(&version) {
                    wanted_pairs[..header.pairs.len()].copy_from_slice(header.pairs);
                    wanted_keys[..header.keys.len()].copy_from_slice(header.keys);
                    assert_eq!(answer, Ok(header.body), "policy {policy}");
                } else {
                    assert_eq!(answer, Err(FORBIDDEN), "policy {policy}");
                }
                assert_eq!((pairs, keys), (wanted_pairs, wanted_keys), "{policy}");
                compared += 1;
            }
            for strict in [false, true] {
                let other = Asked::new(3 - version, strict);
                let answer = read(codec, &header.bytes, other, (5, 7));
                assert_eq!(answer, Err((4, 0)), "policy {policy}");
                compared += 1;
            }
        }
    }
    compared
}

/// A cut in the opening is a shortage; behind the suite it makes no difference
/// to what is forbidden.
pub fn every_cut(codec: &impl Codec) -> u64 {
    let mut compared = 0;
    for (policy, versions) in policies() {
        for version in [1, 2] {
            let header = header(version);
            let opening = if version == 1 { 4 } else { 3 };
            for cut in 0..header.bytes.len() {
                let stop = header.stops.iter().find(|&&stop| stop > cut as u64);
                let forbidden = cut >= opening && !versions.contains(&version);
                let wanted = match forbidden {
                    true => FORBIDDEN,
                    false => (2, *stop.expect("the whole has no shortage")),
                };
                for asked in readers(version) {
                    let message = &header.bytes[..cut];
                    let answer = read(&Under(codec, policy), message, asked, (4, 6));
                    assert_eq!(answer, Err(wanted), "policy {policy}, cut {cut}");
                    compared += 1;
                }
            }
        }
    }
    compared
}

/// Just the opening of every suite, and the first byte of an ID.
pub fn every_suite(codec: &impl Codec) -> u64 {
    let mut compared = 0;
    let first = SUITES_V1.map(|suite| (1, vec![1, 0x80], suite, 20));
    let second = SUITES_V2.map(|suite| (2, vec![2], suite, 35));
    for (version, mut message, suite, id_end) in first.into_iter().chain(second) {
        message.extend(suite.to_be_bytes());
        for _ in 0..2 {
            for (policy, versions) in policies() {
                let wanted = match versions.contains(&version) {
                    true => (2, id_end),
                    false => FORBIDDEN,
                };
                for asked in readers(version) {
                    let answer = read(&Under(codec, policy), &message, asked, (0, 0));
                    assert_eq!(answer, Err(wanted), "{policy}: {message:02X?}");
                    compared += 1;
                }
            }
            message.push(0);
        }
    }
    compared
}

/// H at the end of the longest message, which is cut about the suite, and of one
/// that is a byte too long.
pub fn at_the_greatest_start(codec: &impl Codec) -> u64 {
    let long = header_h_at_four_gibibytes();
    let start = long.len() as u64 - 1 - 58;
    // The bytes behind the start, and the refusals where version 1 is read and
    // where it is forbidden; zeros where there is none.
    let rows = [
        (59, (1, 0), (1, 0)),
        (58, (0, 0), FORBIDDEN),
        (5, (2, start + 20), FORBIDDEN),
        (4, (2, start + 20), FORBIDDEN),
        (3, (2, start + 4), (2, start + 4)),
    ];
    let mut compared = 0;
    for (behind, without, forbidden) in rows {
        let message = &long[..start as usize + behind];
        for (policy, versions) in policies() {
            let wanted = match versions.contains(&1) {
                true => without,
                false => forbidden,
            };
            for asked in readers(1) {
                let asked = Asked { start, ..asked };
                let answer = read(&Under(codec, policy), message, asked, (4, 6));
                let refused = answer.err().unwrap_or_default();
                assert_eq!(refused, wanted, "policy {policy}, {behind} behind");
                compared += 1;
            }
        }
    }
    compared
}
