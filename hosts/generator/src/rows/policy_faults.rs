//! Headers with a fault, read under a policy: what is tested before the suite
//! is refused under any, and what is tested behind it where the policy reads the
//! version.

use super::policies::{header, policies, read, readers, NUMBERS};
use super::{Asked, Codec, Under};
use crate::headers::{header_h_refused, header_h_with, header_v2_with};

/// Version, place, byte, the refusal by the readers of either version, and by
/// those of one: all that is tested before the policy.
const FRONTS: [(u32, usize, u8, u32, u32); 10] = [
    (1, 0, 0, 3, 3),
    (1, 0, 3, 3, 3),
    (1, 0, 2, 6, 4),
    (1, 1, 0x81, 5, 5),
    (1, 3, 0x79, 6, 6),
    (1, 2, 0x04, 7, 7),
    (1, 2, 0x05, 7, 7),
    (2, 0, 1, 5, 4),
    (2, 1, 0x01, 7, 7),
    (2, 2, 0x79, 6, 6),
];

/// Whatever the policy; and H from starts at which none of it stands.
pub fn fronts(codec: &impl Codec) -> u64 {
    let mut compared = 0;
    for (policy, _) in policies() {
        let codec = &Under(codec, policy);
        for (version, at, byte, either, one) in FRONTS {
            let mut message = header(version).bytes;
            message[at] = byte;
            for asked in readers(version) {
                let number = if asked.version == 0 { either } else { one };
                let answer = read(codec, &message, asked, (4, 6));
                assert_eq!(answer, Err((number, 0)), "policy {policy}, {at}");
                compared += 1;
            }
        }
        // The first two are cut behind the suite.
        for (message, start, wanted) in &header_h_refused()[2..] {
            for asked in readers(1) {
                let start = *start;
                let answer = read(codec, message, Asked { start, ..asked }, (4, 6));
                assert_eq!(answer, Err(*wanted), "policy {policy}, start {start}");
                compared += 1;
            }
        }
    }
    compared
}

/// What is lent beside the message: a maximum, and tables of so many numbers.
type Lending = (Option<u64>, usize, usize);

/// A maximum that is kept, and tables that hold what the headers have.
const ENOUGH: Lending = (Some(2), 8, 12);

/// A version, what is lent, and the refusal.
const LENT: [(u32, Lending, u32); 6] = [
    (1, (Some(0), 4, 6), 15),
    (1, (None, 3, 6), 22),
    (1, (None, 4, 5), 23),
    (2, (Some(0), 0, 6), 15),
    (2, (Some(0), 0, 0), 15),
    (2, (None, 0, 5), 23),
];

/// Sections, and the refusal by tolerant readers and by strict ones; 0 where
/// there is none.
const CONTEXTS: [(&str, u32, u32); 9] = [
    ("00 02 00 00", 0, 21),
    ("00 02 00 01", 8, 8),
    ("00 03 00 00 00", 9, 9),
    ("00 08 00 01 00 02 C0 80 00 00", 10, 10),
    ("00 08 00 01 00 00 00 02 C0 80", 11, 11),
    ("00 0A 00 02 00 00 00 00 00 00 00 00", 12, 12),
    ("00 07 00 01 00 00 00 00 00", 14, 14),
    ("00 01 00 00", 32, 32),
    ("00 04 00 01 00 05", 32, 32),
];

/// Version, place, byte, and the refusal by the readers of either version and
/// by those of one, behind the context.
const BACKS: [(u32, usize, u8, u32, u32); 10] = [
    (1, 35, 0, 38, 38),
    (1, 38, 0xFF, 16, 16),
    (1, 48, 3, 17, 17),
    (1, 52, 1, 18, 18),
    (1, 53, 13, 19, 19),
    (1, 56, 0, 20, 0),
    (2, 38, 0, 38, 38),
    (2, 41, 0xFF, 16, 16),
    (2, 48, 3, 17, 17),
    (2, 52, 1, 20, 0),
];

/// Every reader of the version answers the number that is wanted without a
/// policy, unless the policy forbids the version.
fn answers(
    codec: &impl Codec,
    (version, message): (u32, &[u8]),
    (max, pairs, keys): Lending,
    wanted: impl Fn(Asked) -> u32,
) -> u64 {
    for (policy, versions) in policies() {
        for asked in readers(version) {
            let asked = Asked { max, ..asked };
            let number = match versions.contains(&version) {
                true => wanted(asked),
                false => 39,
            };
            let answer = read(&Under(codec, policy), message, asked, (pairs, keys));
            let refused = answer.err().unwrap_or_default();
            assert_eq!(refused, (number, 0), "policy {policy}: {message:02X?}");
        }
    }
    4 * NUMBERS
}

/// A refusal of what stands behind the suite, or of what is lent, comes after
/// 39.
pub fn behind(codec: &impl Codec) -> u64 {
    let mut compared = 0;
    for (section, tolerant, strict) in CONTEXTS {
        let wanted = |asked: Asked| if asked.strict { strict } else { tolerant };
        let (first, second) = (header_h_with(section), header_v2_with(section));
        compared += answers(codec, (1, &first), ENOUGH, wanted);
        compared += answers(codec, (2, &second), ENOUGH, wanted);
    }
    for (version, at, byte, either, one) in BACKS {
        let mut message = header(version).bytes;
        message[at] = byte;
        let wanted = |asked: Asked| if asked.version == 0 { either } else { one };
        compared += answers(codec, (version, &message), ENOUGH, wanted);
    }
    for (version, lending, number) in LENT {
        let message = header(version).bytes;
        compared += answers(codec, (version, &message), lending, |_| number);
    }
    compared
}
