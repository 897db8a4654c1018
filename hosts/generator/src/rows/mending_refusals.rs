//! Drafts that can't be read: both operations refuse them first, whatever is to
//! be dropped or added.

use super::mending::draft;
use super::{Mend, Refused};

/// Keys with the IDs "a" and "b", 18 bytes with their count.
pub(super) const KEYS: &str = "0002 000161 000131 0001AA  000162 0000 0000";

/// Keys that would be refused by neither of 16 and 27, by one of them, and by
/// both: `long` is two bytes longer than a part can be, and its first is no text.
fn added(long: &[u8]) -> [[&[u8]; 3]; 5] {
    [
        [b"z", b"", b""],
        [&[0xFF], b"", b""],
        [b"z", b"", &long[1..]],
        [&long[1..], b"", b""],
        [&long[..long.len() - 1], b"", b""],
    ]
}

/// How many answers one draft gives.
pub const ANSWERS: u64 = 5 + 5;

/// Whatever is asked: an ID that one key has or the other, none, no text; a key
/// that is sound or not. There is no room for any.
fn refused(mend: &impl Mend, draft: &[u8], wanted: Refused) -> u64 {
    for id in [&b"a"[..], b"b", b"", b"z", &[0xFF]] {
        let mut buffer = draft.to_vec();
        let answer = mend.drop_keys(&mut buffer, id);
        assert_eq!(answer, Err(wanted), "{id:02X?} from {draft:02X?}");
        assert_eq!(buffer, draft);
    }
    let mut long = vec![b'z'; 65_537];
    long[0] = 0xFF;
    for key in added(&long) {
        let mut buffer = draft.to_vec();
        let answer = mend.add_key(&mut buffer, key);
        assert_eq!(answer, Err(wanted), "a key to {draft:02X?}");
        assert_eq!(buffer, draft);
    }
    ANSWERS
}

/// Where each read ends, by version.
pub(super) const STOPS: [&[u64]; 2] = [
    &[
        1, 2, 4, 20, 22, 24, 26, 27, 29, 30, 32, 33, 35, 36, 38, 40, 41, 45, 46, 50,
    ],
    &[
        1, 3, 35, 37, 39, 41, 42, 44, 45, 47, 48, 50, 51, 53, 55, 56, 60, 92,
    ],
];

/// Every cut is a shortage.
pub fn every_cut(mend: &impl Mend) -> u64 {
    let mut answers = 0;
    for (version, stops) in [1, 2].into_iter().zip(STOPS) {
        let whole = draft(version, "00 00", KEYS);
        assert_eq!(whole.len() as u64, stops[stops.len() - 1]);
        for cut in 0..whole.len() {
            let stop = stops.iter().find(|&&stop| stop > cut as u64);
            let wanted = (2, *stop.expect("a read that the cut meets"));
            answers += refused(mend, &whole[..cut], wanted);
        }
    }
    answers
}

/// Version, place, byte and refusal.
pub(super) type Field = (u32, usize, u8, u32);

pub(super) const FIELDS: [Field; 27] = [
    (1, 0, 0, 3),
    (1, 0, 3, 3),
    (1, 0, 2, 6),
    (1, 1, 0x81, 5),
    (1, 3, 0x79, 6),
    (1, 2, 0x04, 7),
    (1, 23, 0, 38),
    (1, 26, 0xFF, 16),
    (1, 35, 0xFF, 16),
    (1, 40, 0, 17),
    (1, 40, 3, 17),
    (1, 40, 1, 20),
    (1, 41, 1, 18),
    (1, 44, 1, 18),
    (1, 45, 13, 19),
    (1, 48, 0, 20),
    (2, 0, 1, 5),
    (2, 0, 3, 3),
    (2, 1, 0x01, 7),
    (2, 2, 0x79, 6),
    (2, 38, 0, 38),
    (2, 41, 0x80, 16),
    (2, 50, 0x80, 16),
    (2, 55, 0, 17),
    (2, 55, 2, 20),
    (2, 56, 1, 20),
    (2, 59, 1, 20),
];

/// One byte is another.
pub fn fields(mend: &impl Mend) -> u64 {
    let mut answers = 0;
    for (version, at, byte, number) in FIELDS {
        let mut draft = draft(version, "00 00", KEYS);
        draft[at] = byte;
        // What stands behind makes no difference.
        draft.extend(b"behind");
        answers += refused(mend, &draft, (number, 0));
    }
    answers
}

/// Context sections.
pub(super) const CONTEXTS: [(&str, u32); 9] = [
    ("00 02 00 01", 8),
    ("00 03 00 00 00", 9),
    ("00 08 00 01 00 02 C0 80 00 00", 10),
    ("00 08 00 01 00 00 00 02 C0 80", 11),
    ("00 0A 00 02 00 00 00 00 00 00 00 00", 12),
    ("00 07 00 01 00 00 00 00 00", 14),
    ("00 01 00 00", 32),
    ("00 04 00 01 00 05", 32),
    ("00 06 00 02 00 00 00 00", 32),
];

pub fn contexts(mend: &impl Mend) -> u64 {
    let mut answers = 0;
    for (context, number) in CONTEXTS {
        for version in [1, 2] {
            let draft = draft(version, context, KEYS);
            answers += refused(mend, &draft, (number, 0));
        }
    }
    answers
}

/// What else is lent to add a key: whether its ID is UTF-8, whether a part is
/// too long, whether there is room; and the refusal, in the order of tests.
const ORDER: [(bool, bool, bool, u32); 7] = [
    (false, false, true, 16),
    (false, false, false, 16),
    (false, true, true, 16),
    (false, true, false, 16),
    (true, true, true, 27),
    (true, true, false, 27),
    (true, false, false, 28),
];

/// The part is any of the three.
pub fn order(mend: &impl Mend) -> u64 {
    let long = vec![b'z'; 65_536];
    let mut answers = 0;
    for version in [1, 2] {
        for (text, too_long, fits, number) in ORDER {
            for part in 0..3 {
                let mut key = [&long[..3]; 3];
                if too_long {
                    key[part] = &long;
                }
                let mut id = key[0].to_vec();
                if !text {
                    *id.last_mut().expect("a byte") = 0xC3;
                }
                let taken = 6 + key.iter().map(|part| part.len()).sum::<usize>();
                let mut buffer = draft(version, "00 02 00 00", KEYS);
                let room = if fits { taken } else { taken - 1 };
                buffer.resize(buffer.len() + room, 0xEE);
                let before = buffer.clone();
                let answer = mend.add_key(&mut buffer, [&id, key[1], key[2]]);
                assert_eq!(answer, Err((number, 0)), "part {part}");
                assert!(buffer == before, "part {part}");
                answers += 1;
            }
        }
    }
    answers
}
