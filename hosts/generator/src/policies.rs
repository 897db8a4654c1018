//! The commitment policies by their numbers, and requests that one forbids.

use crate::body_cases::Reader;
use crate::fields::{SUITES_V1, SUITES_V2};
use crate::random::Random;

/// No policy, then FORBID_ENCRYPT_ALLOW_DECRYPT, REQUIRE_ENCRYPT_ALLOW_DECRYPT
/// and REQUIRE_ENCRYPT_REQUIRE_DECRYPT.
pub const POLICIES: [u32; 4] = [0, 1, 2, 3];

/// Numbers that no policy has, each of which stands for the last; some are that
/// of another in their lowest byte or bytes.
pub const UNKNOWN: [u32; 12] = [
    4,
    5,
    0xFF,
    0x100,
    0x101,
    0x102,
    0x103,
    0x1_0000,
    0x1_0002,
    0x8000_0000,
    0x8000_0001,
    u32::MAX,
];

/// The numbers above, all of them.
pub fn numbers() -> impl Iterator<Item = u32> + Clone {
    POLICIES.into_iter().chain(UNKNOWN)
}

/// The number of a policy, in one of three cases one that no policy has.
pub fn policy(random: &mut Random) -> u32 {
    match random.below(6) {
        0 => random.pick(&UNKNOWN),
        1 => random.between(4, u64::from(u32::MAX)) as u32,
        _ => random.pick(&POLICIES),
    }
}

/// Whether a policy lets a body of a version be read.
pub fn may_read(policy: u32, version: u32) -> bool {
    policy < 3 || version == 2
}

/// Whether a policy lets a body of a version be written.
pub fn may_write(policy: u32, version: u32) -> bool {
    policy == 0 || (policy == 1) == (version == 1)
}

fn is_suite(version: u32, suite: u32) -> bool {
    match version {
        1 => SUITES_V1.iter().any(|&known| u32::from(known) == suite),
        _ => SUITES_V2.iter().any(|&known| u32::from(known) == suite),
    }
}

/// The version of a message's first bytes, if they are a whole and sound
/// opening as far as the suite.
fn opened(bytes: &[u8]) -> Option<u32> {
    let (version, high, low) = match *bytes {
        [1, 0x80, high, low, ..] => (1, high, low),
        [2, high, low, ..] => (2, high, low),
        _ => return None,
    };
    let suite = u16::from_be_bytes([high, low]);
    is_suite(version, suite.into()).then_some(version)
}

/// Whether a policy forbids what a reader meets at a start: nothing up to the
/// suite is refused, and the version is one that the policy doesn't read.
pub fn forbids_reading(policy: u32, reader: Reader, message: &[u8], start: u64) -> bool {
    let greatest = u64::from(u32::MAX);
    if message.len() as u64 > greatest || start > greatest {
        return false;
    }
    let version = message.get(start as usize..).and_then(opened);
    version.is_some_and(|version| {
        let asked = match reader {
            Reader::Either => true,
            Reader::V1 => version == 1,
            Reader::V2 => version == 2,
        };
        asked && !may_read(policy, version)
    })
}

/// Whether a policy forbids a body of these numbers to be written, version,
/// type and suite first: they agree, and the policy doesn't write the version.
pub fn forbids_writing(policy: u32, numbers: [u32; 7]) -> bool {
    let [version, message_type, suite, ..] = numbers;
    let front = (version, message_type);
    let sound = matches!(front, (1, 0x80) | (2, 0)) && is_suite(version, suite);
    sound && !may_write(policy, version)
}
