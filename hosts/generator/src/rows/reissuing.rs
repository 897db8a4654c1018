//! Drafts that are reissued: what their rows share, and drafts and bodies with
//! all of their bytes.

use super::mending::{ABC, ACUTE, AGAIN, BEGIN};
use super::{Added, Refused, Reissue};
use crate::fields::{SUITES_V1, SUITES_V2};
use crate::headers::hex;

/// The new ID and suite data of most rows.
pub(super) const ID: [u8; 32] = counted(0x20);
pub(super) const DATA: [u8; 32] = counted(0x40);

/// Bytes that go up by one.
const fn counted(first: u8) -> [u8; 32] {
    let mut bytes = [first; 32];
    let mut at = 0;
    while at < 32 {
        bytes[at] += at as u8;
        at += 1;
    }
    bytes
}

/// These with a suite.
pub(super) fn added(suite: u32) -> Added<'static> {
    Added {
        suite,
        id: &ID,
        suite_data: &DATA,
    }
}

/// How many answers a draft that is accepted gives, and one that is refused.
pub const ACCEPTED: u64 = 1 + 4;
pub const REFUSED: u64 = 1 + 2;

/// Reissued, a draft becomes this body: in an output that just holds it, and in
/// a longer one, whose rest keeps. One that is too short is refused and keeps.
pub(super) fn becomes(
    codec: &impl Reissue,
    (message, start): (&[u8], u64),
    added: Added,
    image: &[u8],
) -> u64 {
    let length = image.len();
    let told = codec.reissued_len(message, start, added);
    assert_eq!(told, Ok(length as u64), "{:?}", added.suite);
    for room in [length, length + 9, length - 1, 0] {
        let mut out = vec![0xEE; room];
        let answer = codec.reissue(message, start, added, &mut out);
        let front = match room >= length {
            true => {
                assert_eq!(answer, Ok(length as u64), "{room} bytes");
                assert!(out[..length] == *image, "{room} bytes: the body");
                length
            }
            false => {
                assert_eq!(answer, Err((28, 0)), "{room} bytes");
                0
            }
        };
        assert!(out[front..].iter().all(|&byte| byte == 0xEE));
    }
    ACCEPTED
}

/// A request that is refused, whether there is an output or none; it keeps.
pub(super) fn refused(
    codec: &impl Reissue,
    (message, start): (&[u8], u64),
    added: Added,
    wanted: Refused,
) -> u64 {
    assert_eq!(codec.reissued_len(message, start, added), Err(wanted));
    for room in [message.len().min(1_000) + 42, 0] {
        let mut out = vec![0xEE; room];
        let answer = codec.reissue(message, start, added, &mut out);
        assert_eq!(answer, Err(wanted), "{room} bytes, {:?}", added.suite);
        assert!(out.iter().all(|&byte| byte == 0xEE));
    }
    REFUSED
}

/// Header H of document 01; a draft of non-framed content without pairs, in
/// today's form; and one in the old form. Each with the body that it becomes,
/// whose suite is given.
const IN_FULL: [(&str, u32, &str); 3] = [
    (
        "01 80 01 78 00 01 02 03 04 05 06 07 08 09 0A 0B 0C 0D 0E 0F \
         00 0C 00 01 00 04 6C 61 6E 67 00 02 63 79 \
         00 01 00 02 70 31 00 01 61 00 03 AA BB CC 02 00 00 00 00 0C 00 00 10 00",
        0x0578,
        "02 05 78 20 21 22 23 24 25 26 27 28 29 2A 2B 2C 2D 2E 2F \
         30 31 32 33 34 35 36 37 38 39 3A 3B 3C 3D 3E 3F \
         00 0C 00 01 00 04 6C 61 6E 67 00 02 63 79 \
         00 01 00 02 70 31 00 01 61 00 03 AA BB CC 02 00 00 10 00 \
         40 41 42 43 44 45 46 47 48 49 4A 4B 4C 4D 4E 4F \
         50 51 52 53 54 55 56 57 58 59 5A 5B 5C 5D 5E 5F",
    ),
    (
        "01 80 00 14 F0 F1 F2 F3 F4 F5 F6 F7 F8 F9 FA FB FC FD FE FF 00 00 \
         00 02 00 01 70 00 00 00 01 DD 00 00 00 02 00 01 00 00 01 00 00 00 00 0C 00 00 00 00",
        0x0478,
        "02 04 78 20 21 22 23 24 25 26 27 28 29 2A 2B 2C 2D 2E 2F \
         30 31 32 33 34 35 36 37 38 39 3A 3B 3C 3D 3E 3F 00 00 \
         00 02 00 01 70 00 00 00 01 DD 00 00 00 02 00 01 00 00 01 00 00 00 00 \
         40 41 42 43 44 45 46 47 48 49 4A 4B 4C 4D 4E 4F \
         50 51 52 53 54 55 56 57 58 59 5A 5B 5C 5D 5E 5F",
    ),
    (
        "01 80 03 78 00 00 00 00 00 00 00 00 00 00 00 00 00 00 00 00 00 02 00 00 \
         00 01 00 00 00 00 00 00 02 00 00 00 00 0C FF FF FF FF",
        0x0578,
        "02 05 78 20 21 22 23 24 25 26 27 28 29 2A 2B 2C 2D 2E 2F \
         30 31 32 33 34 35 36 37 38 39 3A 3B 3C 3D 3E 3F 00 00 \
         00 01 00 00 00 00 00 00 02 FF FF FF FF \
         40 41 42 43 44 45 46 47 48 49 4A 4B 4C 4D 4E 4F \
         50 51 52 53 54 55 56 57 58 59 5A 5B 5C 5D 5E 5F",
    ),
];

/// The bodies have 42 bytes more than their drafts, or 40 where the form is old.
pub fn in_full(codec: &impl Reissue) -> u64 {
    let mut answers = 0;
    for ((draft, suite, image), more) in IN_FULL.into_iter().zip([42, 42, 40]) {
        let (draft, image) = (hex(draft), hex(image));
        assert_eq!(image.len(), draft.len() + more);
        answers += becomes(codec, (&draft, 0), added(suite), &image);
    }
    answers
}

/// Context sections. Pairs stay in their order, whatever it is: the fifth has
/// the keys "b", "a", "ab" and none.
const CONTEXTS: [&str; 6] = [
    "0000",
    OLD,
    "0006 0001 0000 0000",
    "000C 0001 00046C616E67 00026379",
    "0018 0004 000162 000131 000161 0000 00026162 000132 0000 0000",
    "000C 0001 0002C3A9 0004F09F9491",
];

/// The one that becomes another: today's form.
const OLD: &str = "0002 0000";

const KEYS: [&str; 5] = [ABC, BEGIN, AGAIN, ACUTE, "0001 0000 0000 0000"];

/// Content types and frame lengths.
const CONTENTS: [(&str, &str); 4] = [
    ("01", "00000000"),
    ("02", "00000001"),
    ("02", "00001000"),
    ("02", "FFFFFFFF"),
];

/// A draft of a suite and an ID of its own, and the body of the suite 0478 that
/// it becomes.
fn both(context: &str, keys: &str, content: (&str, &str)) -> [Vec<u8>; 2] {
    let (content_type, frame_length) = content;
    let (old_id, id, data) = ("A5".repeat(16), "C3".repeat(32), "3C".repeat(32));
    let draft =
        format!("01 80 0214 {old_id} {context} {keys} {content_type} 00000000 0C {frame_length}");
    let context = if context == OLD { "0000" } else { context };
    let image = format!("02 0478 {id} {context} {keys} {content_type} {frame_length} {data}");
    [hex(&draft), hex(&image)]
}

/// How many drafts `sections` has.
pub const SECTIONS: u64 = 6 * 5 * 4 * 2;

/// Each of these sections and contents; at the message's first byte, and behind
/// others, with an authentication record behind it.
pub fn sections(codec: &impl Reissue) -> u64 {
    let new = Added {
        suite: 0x0478,
        id: &[0xC3; 32],
        suite_data: &[0x3C; 32],
    };
    let mut answers = 0;
    for context in CONTEXTS {
        for keys in KEYS {
            for content in CONTENTS {
                let [draft, image] = both(context, keys, content);
                answers += becomes(codec, (&draft, 0), new, &image);
                let message = [&[1, 0x80, 2][..], &draft, &[0x77; 28]].concat();
                answers += becomes(codec, (&message, 3), new, &image);
            }
        }
    }
    answers
}

/// Every suite of version 1 becomes each of version 2.
pub fn suites(codec: &impl Reissue) -> u64 {
    let (draft, _, image) = IN_FULL[0];
    let (mut draft, mut image) = (hex(draft), hex(image));
    let mut answers = 0;
    for old in SUITES_V1 {
        draft[2..4].copy_from_slice(&old.to_be_bytes());
        for new in SUITES_V2 {
            image[1..3].copy_from_slice(&new.to_be_bytes());
            answers += becomes(codec, (&draft, 0), added(new.into()), &image);
        }
    }
    answers
}
