//! Key sections and headers without a key: 38, unless what is tested before it
//! applies.

use super::body_lengths::{bare, refuses, KEY, PAIR, TEXT};
use super::headers::header_v2;
use super::listings::{self, List};
use super::{Asked, Codec, Lent, Refused};
use crate::headers::{header_h, hex};

const NO_KEY: Refused = (38, 0);

/// Key sections, a maximum, and the refusal.
const SECTIONS: [(&str, Option<u64>, Refused); 14] = [
    ("00 00", None, NO_KEY),
    ("00 00", Some(0), NO_KEY),
    ("00 00", Some(1), NO_KEY),
    ("00 00", Some(u64::MAX), NO_KEY),
    // What stands behind the count is no key of the section.
    ("00 00 00 01 70 00 00 00 00", None, NO_KEY),
    ("00 00 00 01 70 00 00 00 00", Some(0), NO_KEY),
    ("00 00 00 01 FF", None, NO_KEY),
    // The count is read first, whole.
    ("", None, (2, 2)),
    ("", Some(0), (2, 2)),
    ("00", None, (2, 2)),
    ("00", Some(0), (2, 2)),
    // One of its bytes is 0, and it isn't.
    ("01 00", None, (2, 4)),
    ("01 00", Some(0), (15, 0)),
    ("00 01", Some(0), (15, 0)),
];

/// At the message's first byte and behind others, with a table and without.
pub fn sections(codec: &impl Codec) -> u64 {
    let mut compared = 0;
    for (row, (bytes, max, (number, position))) in SECTIONS.into_iter().enumerate() {
        for before in [0, 3] {
            let mut message = vec![0xEE; before];
            message.extend(hex(bytes));
            let wanted = match number {
                2 => (2, position + before as u64),
                _ => (number, 0),
            };
            for numbers in [0, 6] {
                let mut table = vec![9; numbers];
                let answer = codec.read_keys(&message, before as u64, max, &mut table);
                assert_eq!(answer, Err(wanted), "row {row}");
                assert!(table.iter().all(|&number| number == 9), "row {row}");
                compared += 1;
            }
        }
    }
    compared
}

/// Header H without its key, 46 bytes, or that of version 2, 76 bytes.
fn without_key(version: u32) -> Vec<u8> {
    let (header, count) = match version {
        1 => (header_h(), 34),
        _ => (header_v2(), 37),
    };
    // In both the content type is byte 48.
    [&header[..count], &[0, 0], &header[48..]].concat()
}

/// Every reader of the version, with and without a maximum, with tables that
/// hold no pair and with longer ones; and what a host is told.
fn refused(codec: &impl Codec, version: u32, message: &[u8], wanted: [Refused; 2]) -> u64 {
    let asked = [
        (None, 0),
        (None, 12),
        (Some(0), 0),
        (Some(0), 12),
        (Some(9), 12),
    ];
    let [tolerant, strict] = wanted;
    for (only, mode) in [(0, false), (0, true), (version, false), (version, true)] {
        for (max, numbers) in asked {
            let asked = Asked {
                max,
                ..Asked::new(only, mode)
            };
            let (mut pairs, mut keys) = (vec![7; numbers], vec![7; numbers]);
            let answer = codec.read_body(message, asked, &mut pairs, &mut keys);
            let wanted = if mode { strict } else { tolerant };
            assert_eq!(answer, Err(wanted), "{asked:?}: {message:02X?}");
            assert!(pairs.iter().chain(&keys).all(|&number| number == 7));
        }
    }
    assert_eq!(codec.host_answer(message, 0), tolerant, "{message:02X?}");
    4 * asked.len() as u64 + 1
}

/// Where each read ends, up to that of the key count, by version.
const STOPS: [&[u64]; 2] = [&[1, 2, 4, 20, 22, 34, 36], &[1, 3, 35, 37, 39]];

/// A cut is a shortage up to the end of the count, and makes no difference
/// behind it.
pub fn every_cut(codec: &impl Codec) -> u64 {
    let mut compared = 0;
    for (version, stops) in [1, 2].into_iter().zip(STOPS) {
        let header = without_key(version);
        for cut in 0..=header.len() {
            let stop = stops.iter().find(|&&stop| stop > cut as u64);
            let wanted = stop.map_or(NO_KEY, |&stop| (2, stop));
            compared += refused(codec, version, &header[..cut], [wanted; 2]);
        }
    }
    compared
}

/// Context sections, and what is answered where there is no key behind them, by
/// tolerant readers and by strict ones.
const CONTEXTS: [(&str, u32, u32); 12] = [
    ("00 00", 38, 38),
    ("00 02 00 00", 38, 21),
    ("00 06 00 01 00 00 00 00", 38, 38),
    ("00 0C 00 01 00 04 6C 61 6E 67 00 02 63 79", 38, 38),
    ("00 02 00 01", 8, 8),
    ("00 03 00 00 00", 9, 9),
    ("00 08 00 01 00 02 C0 80 00 00", 10, 10),
    ("00 08 00 01 00 00 00 02 C0 80", 11, 11),
    ("00 0A 00 02 00 00 00 00 00 00 00 00", 12, 12),
    ("00 07 00 01 00 00 00 00 00", 14, 14),
    ("00 01 00 00", 32, 32),
    ("00 04 00 01 00 05", 32, 32),
];

/// What stands behind the count up to the frame length, by version: sound, then
/// with a fault, 17, in version 1 also 18 and 19, and both of 20.
const BEHIND: [&[&str]; 2] = [
    &[
        "02 00 00 00 00 0C 00 00 10 00",
        "03 00 00 00 00 0C 00 00 10 00",
        "02 00 00 00 01 0C 00 00 10 00",
        "02 00 00 00 00 0D 00 00 10 00",
        "02 00 00 00 00 0C 00 00 00 00",
        "01 00 00 00 00 0C 00 00 10 00",
    ],
    &[
        "02 00 00 10 00",
        "03 00 00 10 00",
        "02 00 00 00 00",
        "01 00 00 10 00",
    ],
];

/// What the context refuses comes before, and what stands behind isn't reached.
pub fn contexts(codec: &impl Codec) -> u64 {
    let mut compared = 0;
    for (context, tolerant, strict) in CONTEXTS {
        for (version, behind) in [1, 2].into_iter().zip(BEHIND) {
            for back in behind {
                let id_end = if version == 1 { 20 } else { 35 };
                let mut message = without_key(version)[..id_end].to_vec();
                message.extend(hex(context));
                message.extend([0, 0]);
                message.extend(hex(back));
                message.extend(64..96u8);
                compared += refused(codec, version, &message, [(tolerant, 0), (strict, 0)]);
            }
        }
    }
    compared
}

/// Version, place, byte, and the refusal of what stands before the context.
const FRONTS: [(u32, usize, u8, u32); 7] = [
    (1, 0, 3, 3),
    (1, 1, 0x81, 5),
    (1, 3, 0x79, 6),
    (1, 2, 0x04, 7),
    (2, 0, 0, 3),
    (2, 2, 0x79, 6),
    (2, 1, 0x01, 7),
];

pub fn fronts(codec: &impl Codec) -> u64 {
    let mut compared = 0;
    for (version, at, byte, number) in FRONTS {
        let mut message = without_key(version);
        message[at] = byte;
        compared += refused(codec, version, &message, [(number, 0); 2]);
    }
    for (version, strict) in [(1, false), (1, true), (2, false), (2, true)] {
        let other = Asked::new(3 - version, strict);
        let answer = codec.read_body(&without_key(version), other, &mut [], &mut []);
        assert_eq!(answer, Err((4, 0)));
        compared += 1;
    }
    compared
}

pub fn listed(listing: impl List) -> u64 {
    for (version, count_end) in [(1, 36), (2, 39)] {
        let header = without_key(version);
        assert_eq!(listing(&header), listings::refused(38, 0));
        assert_eq!(listing(&header[..count_end]), listings::refused(38, 0));
        let short = listings::refused(2, count_end as u64);
        assert_eq!(listing(&header[..count_end - 1]), short);
    }
    2 * 3
}

/// Tables of keys without a whole one; 26 comes before.
const TABLES: [(&[u32], u32); 5] = [
    (&[], 38),
    (&[0], 26),
    (&[0; 5], 26),
    (&[6, 2, 8, 1], 26),
    (&[0, 0, 0, u32::MAX, 0], 26),
];

/// Whatever the text and the output, which keeps.
pub fn sections_written(codec: &impl Codec) -> u64 {
    let mut compared = 0;
    for (table, number) in TABLES {
        for (text, room) in [(TEXT, 0), (TEXT, 1), (TEXT, 2), (TEXT, 40), (b"", 2)] {
            let mut out = vec![0xEE; room];
            let answer = codec.write_keys(text, table, &mut out);
            assert_eq!(answer, Err((number, 0)), "{table:?}, {room}");
            assert!(out.iter().all(|&byte| byte == 0xEE), "{table:?}, {room}");
            compared += 1;
        }
    }
    compared
}

/// A fault, by its number, of a body whose text goes on with letters.
pub(super) type Fault = (u32, fn(&mut Lent));

/// Those that are tested before 38, the keys' last.
pub(super) const BEFORE: [Fault; 15] = [
    (3, |lent| lent.numbers[0] = 3),
    (5, |lent| lent.numbers[1] ^= 1),
    (6, |lent| lent.numbers[2] ^= 1),
    (7, |lent| lent.numbers[2] ^= 0x0178 ^ 0x0578),
    (24, |lent| lent.id = &[7; 24]),
    (26, |lent| lent.pairs = &[0, 4, 4]),
    (26, |lent| lent.pairs = &[u32::MAX, 2, 4, 2]),
    (27, |lent| lent.pairs = &[0, 4, 12, 65_536]),
    (10, |lent| lent.pairs = &[9, 1, 4, 2]),
    (11, |lent| lent.pairs = &[0, 4, 9, 3]),
    (12, |lent| lent.pairs = &[0, 4, 4, 2, 0, 4, 0, 0]),
    (13, |lent| lent.pairs = &[0, 0, 12, 65_530]),
    (33, |lent| (lent.pairs, lent.numbers[6]) = (PAIR, 1)),
    (26, |lent| lent.keys = &[0]),
    (26, |lent| lent.keys = &[6, 2, 8, 1, 9]),
];

/// Those that are tested after it.
pub(super) const AFTER: [Fault; 5] = [
    (17, |lent| lent.numbers[3] = 3),
    (19, |lent| lent.numbers[4] ^= 1),
    (25, |lent| lent.suite_data = &[8; 31]),
    (20, |lent| (lent.numbers[3], lent.numbers[5]) = (2, 0)),
    (20, |lent| (lent.numbers[3], lent.numbers[5]) = (1, 1)),
];

/// Bodies of both versions and forms, written and measured: without another
/// fault, and with each. Those that are tested after are met with a key.
pub fn bodies_written(codec: &impl Codec) -> u64 {
    let mut text = TEXT.to_vec();
    text.resize(70_000, b'z');
    let mut compared = 0;
    for version in [1, 2] {
        for (mark, pairs) in [(0, &[][..]), (0, PAIR), (1, &[]), (0x100, &[])] {
            let text = &text[..];
            let bare = Lent {
                text,
                pairs,
                ..bare(version, mark)
            };
            compared += refuses(codec, bare, 38);
            for (number, plant) in BEFORE {
                let mut lent = bare;
                plant(&mut lent);
                compared += refuses(codec, lent, number);
            }
            for (number, plant) in AFTER {
                let mut lent = bare;
                plant(&mut lent);
                compared += refuses(codec, lent, 38);
                lent.keys = KEY;
                compared += refuses(codec, lent, number);
            }
        }
    }
    compared
}
