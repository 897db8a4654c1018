//! What a reissue refuses: first the draft, whatever is added; then what is
//! added, in the order of tests.

use super::mending::draft;
use super::mending_refusals::{CONTEXTS, FIELDS, KEYS, STOPS};
use super::reissuing::{added, becomes, refused as one, DATA, ID, REFUSED};
use super::{Added, Refused, Reissue};
use crate::fields::{SUITES_V1, SUITES_V2};

/// How many answers a draft that is refused gives.
pub const ANSWERS: u64 = 6 * REFUSED;

/// Whatever is added: it is sound, has one fault, or has all of them.
fn refused(codec: &impl Reissue, message: (&[u8], u64), wanted: Refused) -> u64 {
    let sound = added(0x0478);
    let (id, suite_data) = (&ID[1..], &DATA[1..]);
    [
        sound,
        added(0x0479),
        added(0x0178),
        Added { id, ..sound },
        Added {
            suite_data,
            ..sound
        },
        Added {
            suite: 0x1_0478,
            id,
            suite_data,
        },
    ]
    .into_iter()
    .map(|added| one(codec, message, added, wanted))
    .sum()
}

/// Every cut is a shortage, also behind other bytes.
pub fn every_cut(codec: &impl Reissue) -> u64 {
    let whole = draft(1, "00 00", KEYS);
    let before = [&[0x01, 0x80, 0x02][..], &whole].concat();
    let mut answers = 0;
    for cut in 0..whole.len() {
        let stop = STOPS[0].iter().find(|&&stop| stop > cut as u64);
        let stop = *stop.expect("a read that the cut meets");
        answers += refused(codec, (&whole[..cut], 0), (2, stop));
        answers += refused(codec, (&before[..3 + cut], 3), (2, 3 + stop));
    }
    answers
}

/// One byte is another.
pub fn fields(codec: &impl Reissue) -> u64 {
    let mut answers = 0;
    for (_, at, byte, number) in FIELDS.into_iter().filter(|field| field.0 == 1) {
        let mut draft = draft(1, "00 00", KEYS);
        draft[at] = byte;
        // What stands behind makes no difference.
        draft.extend(b"behind");
        // What would be read on as version 2 elsewhere isn't here.
        let number = if (at, byte) == (0, 2) { 4 } else { number };
        answers += refused(codec, (&draft, 0), (number, 0));
    }
    answers
}

pub fn contexts(codec: &impl Reissue) -> u64 {
    let refuse = |(context, number)| {
        let draft = draft(1, context, KEYS);
        refused(codec, (&draft, 0), (number, 0))
    };
    CONTEXTS.into_iter().map(refuse).sum()
}

/// A draft of version 2 is refused as soon as its first byte is there, whatever
/// follows: cut anywhere, or any byte.
pub fn other_version(codec: &impl Reissue) -> u64 {
    let whole = draft(2, "00 02 00 00", KEYS);
    let cut = |length: usize| refused(codec, (&whole[..length], 0), (4, 0));
    let next = |byte: u8| refused(codec, (&[2, byte], 0), (4, 0));
    let cuts: u64 = (1..=whole.len()).map(cut).sum();
    cuts + (0..=0xFF).map(next).sum::<u64>()
}

/// Starts about a draft of 50 bytes: past its end, and above the greatest.
const STARTS: [(u64, Refused); 9] = [
    (50, (2, 51)),
    (51, (2, 52)),
    (1_000, (2, 1_001)),
    (4_294_967_294, (2, 4_294_967_295)),
    (4_294_967_295, (2, 4_294_967_296)),
    (4_294_967_296, (1, 0)),
    (4_294_967_297, (1, 0)),
    (1 << 63, (1, 0)),
    (u64::MAX, (1, 0)),
];

pub fn starts(codec: &impl Reissue) -> u64 {
    let whole = draft(1, "00 00", KEYS);
    let refuse = |(start, wanted)| refused(codec, (&whole, start), wanted);
    STARTS.into_iter().map(refuse).sum()
}

/// Suites that are unknown, of which some have a known one's lowest bits.
const UNKNOWN: [u32; 8] = [
    0,
    0x0479,
    0x7804,
    0xFFFF,
    0x1_0478,
    0x1_0178,
    0x8000_0578,
    0xFFFF_FFFF,
];

/// Lengths of an ID or of suite data that are wrong; in some of them the lowest
/// bits are right.
const LENGTHS: [usize; 7] = [0, 16, 31, 33, 64, 32 + 256, 32 + 65_536];

/// Contents that go together, and two that don't.
const CONTENTS: [([u8; 5], u32); 3] = [
    ([2, 0, 0, 16, 0], 0),
    ([2, 0, 0, 0, 0], 20),
    ([1, 0, 0, 0, 1], 20),
];

/// Each known suite and these; the right length and these, twice.
pub const ORDER: u64 = 3 * (11 + 8) * 8 * 8;

/// Accepted are just the suites of version 2 with the right lengths.
pub const ORDER_ACCEPTED: u64 = 2;

/// A draft in the old form with this content, and the body that it becomes, of
/// whatever suite, with an ID and suite data of one byte.
fn with_content(content: [u8; 5]) -> [Vec<u8>; 2] {
    let mut draft = draft(1, "00 02 00 00", KEYS);
    let back = draft.len() - 10;
    draft[back] = content[0];
    draft[back + 6..].copy_from_slice(&content[1..]);
    let front = [&[2, 0, 0][..], &[BYTE; 32], &[0, 0]].concat();
    let image = [&front, &draft[24..back], &content, &[BYTE; 32]].concat();
    [draft, image]
}

const BYTE: u8 = 0x99;

/// Every suite with what it is refused by, 0 for nothing.
fn suites() -> impl Iterator<Item = (u32, u32)> {
    let unknown = UNKNOWN.into_iter().map(|suite| (suite, 6));
    let first = SUITES_V1.into_iter().map(|suite| (suite.into(), 7));
    let second = SUITES_V2.into_iter().map(|suite| (suite.into(), 0));
    unknown.chain(first).chain(second)
}

/// The same of lengths, the right one among them.
fn lengths(number: u32) -> impl Iterator<Item = (usize, u32)> {
    let wrong = LENGTHS.into_iter().map(move |length| (length, number));
    wrong.chain([(32, 0)])
}

/// Every content, suite and length with every other: of the faults the first in
/// the order of tests is answered, 20, 6, 7, 24 and then 25.
pub fn order(codec: &impl Reissue) -> u64 {
    let long = vec![BYTE; 32 + 65_536];
    let mut answers = 0;
    for (content, of_draft) in CONTENTS {
        let [draft, mut image] = with_content(content);
        for (suite, of_suite) in suites() {
            image[1..3].copy_from_slice(&(suite as u16).to_be_bytes());
            for (id, of_id) in lengths(24) {
                for (data, of_data) in lengths(25) {
                    let new = Added {
                        suite,
                        id: &long[..id],
                        suite_data: &long[..data],
                    };
                    let mut faults = [of_draft, of_suite, of_id, of_data].into_iter();
                    answers += match faults.find(|&number| number > 0) {
                        Some(number) => one(codec, (&draft, 0), new, (number, 0)),
                        None => becomes(codec, (&draft, 0), new, &image),
                    };
                }
            }
        }
    }
    answers
}
