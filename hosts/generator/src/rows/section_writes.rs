//! Context and key sections written.

use super::{Codec, Refused, Written};
use crate::headers::hex;

/// A table, the output's length, and the image or the refusal.
type Row<'a> = (&'a [u32], usize, Result<&'a str, u32>);

const TEXT: &[u8] = b"langcy\xFFp1a";

const PAIRS: [Row; 16] = [
    (&[], 2, Ok("00 00")),
    (&[], 1, Err(28)),
    (
        &[0, 4, 4, 2],
        14,
        Ok("00 0C 00 01 00 04 6C 61 6E 67 00 02 63 79"),
    ),
    (&[0, 4, 4, 2], 13, Err(28)),
    (&[0, 4, 4], 20, Err(26)),
    (&[0, 4, 4, 2, 0], 20, Err(26)),
    (&[0, 4, 4, 7], 20, Err(26)),
    (&[10, 0, 10, 0], 8, Ok("00 06 00 01 00 00 00 00")),
    (&[11, 0, 0, 0], 20, Err(26)),
    (&[u32::MAX, u32::MAX, 0, 0], 20, Err(26)),
    (&[6, 1, 0, 0], 20, Err(10)),
    (&[0, 0, 6, 1], 20, Err(11)),
    (&[0, 1, 6, 1, 6, 1, 0, 0], 40, Err(11)),
    (&[0, 1, 0, 0, 9, 1, 0, 0, 1, 1, 0, 0], 40, Err(12)),
    (
        &[0, 1, 0, 0, 0, 2, 0, 0],
        40,
        Ok("00 0D 00 02 00 01 6C 00 00 00 02 6C 61 00 00"),
    ),
    (&[0, 0, 0, 0, 0, 0, 0, 0], 0, Err(12)),
];

const KEYS: [Row; 9] = [
    (&[], 2, Err(38)),
    (&[], 0, Err(38)),
    (
        &[7, 2, 9, 1, 6, 1],
        12,
        Ok("00 01 00 02 70 31 00 01 61 00 01 FF"),
    ),
    (&[7, 2, 9, 1, 6, 1], 11, Err(28)),
    (&[7, 2, 9, 1, 6, 1], 0, Err(28)),
    (&[7, 2, 9, 1], 20, Err(26)),
    (&[7, 2, 9, 1, 6, 5], 20, Err(26)),
    (&[6, 1, 0, 0, 0, 0], 20, Err(16)),
    (
        &[0, 0, 0, 0, 0, 0, 0, 0, 0, 0, 0, 0],
        14,
        Ok("00 02 0000 0000 0000 0000 0000 0000"),
    ),
];

pub fn section_writers(codec: &impl Codec) -> u64 {
    for (row, (table, room, wanted)) in PAIRS.into_iter().enumerate() {
        let mut out = vec![0xEE; room];
        writes(
            row,
            codec.write_section(TEXT, table, &mut out),
            &out,
            wanted,
        );
    }
    for (row, (table, room, wanted)) in KEYS.into_iter().enumerate() {
        let mut out = vec![0xEE; room];
        writes(row, codec.write_keys(TEXT, table, &mut out), &out, wanted);
    }
    (PAIRS.len() + KEYS.len()) as u64
}

/// The answer is the image's length and the output begins with it, or the
/// refusal; bytes beyond keep.
pub(super) fn writes(row: usize, answer: Written, out: &[u8], wanted: Result<&str, u32>) {
    let image = wanted.map(hex);
    let length: Result<u64, Refused> = image
        .as_ref()
        .map(|image| image.len() as u64)
        .map_err(|number| (*number, 0));
    assert_eq!(answer, length, "row {row}");
    let image = image.unwrap_or_default();
    assert_eq!(out[..image.len()], image, "row {row}");
    assert!(
        out[image.len()..].iter().all(|&byte| byte == 0xEE),
        "row {row}"
    );
}

pub fn counts_and_lengths_of_16_bits(codec: &impl Codec) -> u64 {
    let text = vec![b'a'; 65_536];
    let mut out = vec![0xEE; 16];
    let pair_rows: [(&[u32], u32); 5] = [
        (&[0, 65_536, 0, 0], 27),
        (&[0, 0, 0, 65_536], 27),
        (&[0, 0, 0, 65_535], 13),
        (&vec![0; 4 * 65_536], 27),
        (&vec![0; 4 * 65_535], 12),
    ];
    for (table, number) in pair_rows {
        assert_eq!(
            codec.write_section(&text, table, &mut out),
            Err((number, 0))
        );
    }
    let key_rows: [(&[u32], u32); 3] = [
        (&[0, 0, 0, 0, 0, 65_536], 27),
        (&vec![0; 6 * 65_536], 27),
        (&vec![0; 6 * 65_535], 28),
    ];
    for (table, number) in key_rows {
        assert_eq!(codec.write_keys(&text, table, &mut out), Err((number, 0)));
    }
    assert!(out.iter().all(|&byte| byte == 0xEE));
    (pair_rows.len() + key_rows.len()) as u64
}
