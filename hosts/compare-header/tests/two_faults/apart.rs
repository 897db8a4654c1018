//! Faults that can't both hold of one request. They are asked for all the
//! same: the second is there to be met as soon as the first is mended.

use super::every_pair::number_of;

const CUT: &str = "what the second looks at is in the bytes that are wanted";
const LENGTH: &str = "how much the second wants is in the bytes that are wanted";

const EMPTY: &str = "a section of length 2 has no pairs to end in";
const NO_FRAME: &str = "there is no frame to have another fault";
const NO_KEY: &str = "there is no key to have another fault";
const ENDS: &str = "a section that ends in its pairs doesn't end behind them";

/// Neighbours that only what they mean keeps apart.
pub const NAMED: &[(&str, &str, &str)] = &[
    (
        "3 version",
        "4 other version",
        "an unknown version is no other",
    ),
    ("6 suite", "7 suite", "an unknown suite is of no version"),
    ("32 pair count", "8 count", "the length is 1, or 2"),
    ("8 count", "21 old form", "the count is not 0, or 0"),
    ("8 count", "9 no pairs", "the length is 2, or another"),
    ("21 old form", "9 no pairs", "the length is 2, or another"),
    ("9 no pairs", "32 key 1 length", "a count of 0 has no pairs"),
    ("20 framed", "20 non-framed", "there is one content type"),
    ("29 key", "28 output", "there is no value to be too long"),
    ("26 pairs in fours", "26 pair place", "one test"),
    ("26 keys in sixes", "26 key place", "one test"),
    ("27 pair count", "27 pair part", "one test"),
    ("27 key count", "27 key part", "one test"),
    ("27 key part", "38 no key", "a part is one of a key's"),
    ("38 no key", "15 maximum", "a count of 0 is above none"),
    ("31 required in twos", "31 required place", "one test"),
    ("26 frames in sixes", "26 frame place", "one test"),
    (
        "26 frame place",
        "36 no frame",
        "a place is one of a frame's",
    ),
    ("27 added part", "27 draft's keys", "one test"),
    (
        "6 added suite",
        "7 added suite",
        "an unknown suite is of no version",
    ),
];

/// The same of faults that others stand between.
pub const FARTHER: &[(&str, &str, &str)] = &[
    ("32 pair count", "21 old form", "the length is 1, or 2"),
    ("8 count", "14 end", "the length is 2, or another"),
    ("21 old form", "14 end", "the length is 2, or another"),
    ("10 key 2", "12 key 2", "key 1 would be refused"),
    ("10 key 3", "12 key 3", "key 1 would be refused"),
    ("10 key 4", "12 key 4", "key 1 would be refused"),
    ("17 content type", "20 framed", "an unknown type is neither"),
    (
        "17 content type",
        "20 non-framed",
        "an unknown type is neither",
    ),
    ("26 pair place", "10 key 4", "no bytes are there"),
    ("26 pair place", "12 key 4", "no bytes are there"),
    ("26 key place", "38 no key", "a place is one of a key's"),
    ("27 key count", "38 no key", "there are too many, or none"),
];

/// Shortages that leave what the second looks at: a section's length decides
/// of its count, the suite data stands behind the frame length, and a table is
/// held against a count, which of frames is the final one's number.
pub const SEEN: &[(&str, &str)] = &[
    ("2 whole section", "32 pair count"),
    ("2 suite data", "20 framed"),
    ("2 suite data", "22 pair table"),
    ("2 frame length", "22 pair table"),
    ("2 ciphertext 2", "23 key table"),
    ("2 tag 3", "23 frame table"),
];

fn in_a_pair(name: &str) -> bool {
    ["32 key ", "32 value "]
        .iter()
        .any(|head| name.starts_with(head))
}

fn of_a_key(name: &str) -> bool {
    ["provider ", "info ", "ciphertext ", "key table"]
        .iter()
        .any(|part| name.contains(part))
}

/// Why two faults never hold of one request, if they don't.
pub fn apart(first: &str, second: &str) -> Option<&'static str> {
    if SEEN.contains(&(first, second)) {
        return None;
    }
    match (number_of(first), number_of(second)) {
        (2, 2) if first.strip_suffix(" length") == Some(second) => Some(LENGTH),
        (2, 2) if second == "2 whole section" => Some(LENGTH),
        (2, 2) => None,
        // The required table is no part of the message, nor is what is added.
        (2, 31) => None,
        (2, _) if second.contains(" added ") => None,
        (2, _) => Some(CUT),
        (8 | 21, 32) if in_a_pair(second) => Some(EMPTY),
        (32, 14) => Some(ENDS),
        (36, _) => Some(NO_FRAME),
        (38, _) if of_a_key(second) => Some(NO_KEY),
        _ => NAMED
            .iter()
            .chain(FARTHER)
            .find(|named| (named.0, named.1) == (first, second))
            .map(|named| named.2),
    }
}
