//! Pairs that are only authenticated, written.

use super::section_writes::writes;
use super::{Codec, Refused};
use crate::headers::{header_h, hex};

/// Keys "b", "ab", "a", "\u{e9}" and "", with values "2", "", "1", "x" and "e".
const SECTION: &str = "00 20 00 05 00 01 62 00 01 32 00 02 61 62 00 00 00 01 61 00 01 31 \
                       00 02 C3 A9 00 01 78 00 00 00 01 65";

/// Where required keys have their places; the last byte is no text.
const TEXT: &[u8] = b"abc\xC3\xA9\xFF";
const END: u32 = TEXT.len() as u32;

const A: &str = "00 01 00 01 61 00 01 31";
const A_AB_B: &str = "00 03 00 01 61 00 01 31 00 02 61 62 00 00 00 01 62 00 01 32";
const ALL: &str = "00 05 00 00 00 01 65 00 01 61 00 01 31 00 02 61 62 00 00 \
                   00 01 62 00 01 32 00 02 C3 A9 00 01 78";

/// A required table, the output's length, and the image or the refusal.
type Row<'a> = (&'a [u32], usize, Result<&'a str, u32>);

const ROWS: [Row; 36] = [
    // The order is that of keys, whatever the section's and the table's.
    (&[0, 1], 8, Ok(A)),
    (&[1, 1, 0, 2, 0, 1], 20, Ok(A_AB_B)),
    (&[0, 1, 0, 2, 1, 1], 20, Ok(A_AB_B)),
    (&[0, 2, 1, 1, 0, 1], 33, Ok(A_AB_B)),
    (&[0, 0, 0, 1, 0, 2, 1, 1, 3, 2], 32, Ok(ALL)),
    (&[3, 2, 1, 1, 0, 2, 0, 1, END, 0], 40, Ok(ALL)),
    (&[3, 2], 9, Ok("00 01 00 02 C3 A9 00 01 78")),
    (&[0, 0], 7, Ok("00 01 00 00 00 01 65")),
    // Absent: another key, one that a key begins, bytes that are no text,
    // halves of a character, the whole text.
    (&[2, 1], 0, Ok("")),
    (&[0, 3], 0, Ok("")),
    (&[5, 1], 0, Ok("")),
    (&[3, 1, 4, 1, 4, 2], 0, Ok("")),
    (&[0, END], 0, Ok("")),
    (&[2, 1, 5, 1, 0, 1, 0, 3], 8, Ok(A)),
    // Named again, and nothing named.
    (&[0, 1, 0, 1], 8, Ok(A)),
    (&[1, 1, 0, 1, 1, 1, 0, 2, 0, 1, 0, 2], 20, Ok(A_AB_B)),
    (&[], 0, Ok("")),
    (&[], 5, Ok("")),
    // No room.
    (&[0, 1], 7, Err(28)),
    (&[0, 1], 0, Err(28)),
    (&[1, 1, 0, 2, 0, 1], 19, Err(28)),
    (&[3, 2, 1, 1, 0, 2, 0, 1, END, 0], 31, Err(28)),
    // An odd table, whether or not there is room.
    (&[0], 40, Err(31)),
    (&[0, 1, 0], 40, Err(31)),
    (&[0, 1, 0], 0, Err(31)),
    (&[2, 1, 5, 1, 0], 0, Err(31)),
    // Outside by one, by its start, its length or both, first or last.
    (&[END, 0], 7, Ok("00 01 00 00 00 01 65")),
    (&[END + 1, 0], 40, Err(31)),
    (&[END, 1], 40, Err(31)),
    (&[0, END + 1], 40, Err(31)),
    (&[0, 1, END - 1, 2], 0, Err(31)),
    (&[END - 1, 2, 0, 1], 0, Err(31)),
    // Sums that 32 bits would cut to a place inside.
    (&[u32::MAX, u32::MAX], 40, Err(31)),
    (&[u32::MAX, 1], 40, Err(31)),
    (&[1, u32::MAX], 40, Err(31)),
    (&[0, 1, u32::MAX, 2], 40, Err(31)),
];

pub fn one_section(codec: &impl Codec) -> u64 {
    let section = hex(SECTION);
    assert_eq!(section.len(), 34);
    for (row, (required, room, wanted)) in ROWS.into_iter().enumerate() {
        let mut out = vec![0xEE; room];
        let answer = codec.write_only_authenticated(&section, 0, TEXT, required, &mut out);
        writes(row, answer, &out, wanted);
    }
    ROWS.len() as u64
}

/// Both forms of an empty context, and a pair of which both parts are empty.
pub fn empty_contexts_and_parts(codec: &impl Codec) -> u64 {
    const EMPTY_PAIR: &str = "00 06 00 01 00 00 00 00";
    let rows: [(&str, Row); 9] = [
        ("00 00", (&[], 0, Ok(""))),
        ("00 00", (&[0, 1, 0, 0], 0, Ok(""))),
        ("00 00", (&[0], 0, Err(31))),
        ("00 02 00 00", (&[], 0, Ok(""))),
        ("00 02 00 00", (&[0, 1, 0, 0], 3, Ok(""))),
        ("00 02 00 00", (&[END, 1], 0, Err(31))),
        (EMPTY_PAIR, (&[0, 0], 6, Ok("00 01 00 00 00 00"))),
        (EMPTY_PAIR, (&[0, 0], 5, Err(28))),
        (EMPTY_PAIR, (&[0, 1], 0, Ok(""))),
    ];
    for (row, (section, (required, room, wanted))) in rows.into_iter().enumerate() {
        let mut out = vec![0xEE; room];
        let answer = codec.write_only_authenticated(&hex(section), 0, TEXT, required, &mut out);
        writes(row, answer, &out, wanted);
    }
    rows.len() as u64
}

/// A section at a start, and its refusal.
const REFUSED: [(&str, u64, Refused); 20] = [
    ("00 00", 1 << 32, (1, 0)),
    ("00 00", u64::MAX, (1, 0)),
    ("", 0, (2, 2)),
    ("00", 0, (2, 2)),
    ("00 00", u32::MAX as u64, (2, 4_294_967_297)),
    ("00 02 00", 0, (2, 4)),
    ("FF 00 06 00 01 00 00 00", 1, (2, 9)),
    ("00 01 00", 0, (32, 0)),
    ("FF 00 01 00", 1, (32, 0)),
    ("00 01 00 00", 0, (32, 0)),
    ("00 02 00 01", 0, (8, 0)),
    ("00 03 00 00 00", 0, (9, 0)),
    ("00 08 00 01 00 02 C0 80 00 00", 0, (10, 0)),
    ("00 08 00 01 00 00 00 02 C0 80", 0, (11, 0)),
    ("00 0A 00 02 00 00 00 00 00 00 00 00", 0, (12, 0)),
    ("00 04 00 01 00 05", 0, (32, 0)),
    ("00 04 00 01 00 05 61 62 63 64 65 00 00", 0, (32, 0)),
    ("FF 00 06 00 01 00 00 00 01", 1, (32, 0)),
    ("00 06 00 02 00 00 00 00", 0, (32, 0)),
    ("00 07 00 01 00 00 00 00 00", 0, (14, 0)),
];

/// A section's refusal comes before that of the table (31), and both before
/// that of the output (28).
pub fn the_section_is_refused_first(codec: &impl Codec) -> u64 {
    let mut compared = 0;
    for (row, (section, start, wanted)) in REFUSED.into_iter().enumerate() {
        for required in [
            &[][..],
            &[0, 1],
            &[0],
            &[END, 1],
            &[0, 0, u32::MAX, u32::MAX],
        ] {
            for room in [0, 40] {
                let mut out = vec![0xEE; room];
                let bytes = hex(section);
                let answer =
                    codec.write_only_authenticated(&bytes, start, TEXT, required, &mut out);
                assert_eq!(answer, Err(wanted), "row {row}: {required:?}");
                assert!(out.iter().all(|&byte| byte == 0xEE), "row {row}");
                compared += 1;
            }
        }
    }
    compared
}

/// Pairs of 65,533 bytes and their count are the longest image there is; of
/// 65,534 bytes the last goes past the section, which comes before 31.
pub fn the_longest_image(codec: &impl Codec) -> u64 {
    let mut image = hex("00 01 00 01 61 FF F8");
    image.resize(65_535, b'v');
    let mut section = hex("FF FF");
    section.extend_from_slice(&image);
    let write = |section: &[u8], required: &[u32], room: usize| {
        let mut out = vec![0xEE; room];
        let answer = codec.write_only_authenticated(section, 0, TEXT, required, &mut out);
        (answer, out)
    };
    assert_eq!(write(&section, &[0, 1], 65_535), (Ok(65_535), image));
    assert_eq!(write(&section, &[0, 1], 65_534).0, Err((28, 0)));
    assert_eq!(write(&section, &[1, 1], 0).0, Ok(0));
    section[7..9].copy_from_slice(&[0xFF, 0xF9]);
    section.push(b'v');
    assert_eq!(write(&section, &[0, 1], 65_535).0, Err((32, 0)));
    assert_eq!(write(&section, &[0, 1, 0], 0).0, Err((32, 0)));
    5
}

/// The message may be the text as well: that of header H, whose section stands
/// at 20 and whose only key at 26.
pub fn the_message_as_the_text(codec: &impl Codec) -> u64 {
    const TAG: &str = "00 01 00 04 6C 61 6E 67 00 02 63 79";
    let h = header_h();
    let rows: [Row; 7] = [
        (&[26, 4], 12, Ok(TAG)),
        (&[26, 4], 11, Err(28)),
        (&[0, 58, 58, 0, 26, 4, 26, 3, 27, 4], 14, Ok(TAG)),
        (&[26, 3], 0, Ok("")),
        (&[25, 4], 0, Ok("")),
        (&[26, 4, 58, 1], 12, Err(31)),
        (&[26, 4, 59, 0], 12, Err(31)),
    ];
    for (row, (required, room, wanted)) in rows.into_iter().enumerate() {
        let mut out = vec![0xEE; room];
        let answer = codec.write_only_authenticated(&h, 20, &h, required, &mut out);
        writes(row, answer, &out, wanted);
    }
    rows.len() as u64
}
