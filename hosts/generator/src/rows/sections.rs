//! Context and key sections read, and values found.

use super::{Codec, Refused, Section};
use crate::headers::hex;

/// The rows at start 0; true is strict.
const AT_START_0: [(&str, bool, Section); 31] = [
    ("00 00", false, Ok((0, 2))),
    ("00 00", true, Ok((0, 2))),
    ("00 02 00 00", false, Ok((0, 4))),
    ("00 02 00 00", true, Err((21, 0))),
    ("00 02 00 01", false, Err((8, 0))),
    ("00 02 00 01", true, Err((8, 0))),
    ("00 03 00 00 00", false, Err((9, 0))),
    ("00 03 00 00 00", true, Err((9, 0))),
    ("00 01 00", false, Err((32, 0))),
    ("00 01 00", true, Err((32, 0))),
    ("00 01 00 00", false, Err((32, 0))),
    ("00 01 00 00", true, Err((32, 0))),
    ("00 06 00 01 00 00 00 00", false, Ok((1, 8))),
    ("00 06 00 01 00 00 00 00", true, Ok((1, 8))),
    ("00 0A 00 02 00 00 00 00 00 00 00 00", false, Err((12, 0))),
    ("00 08 00 01 00 02 C0 80 00 00", false, Err((10, 0))),
    ("00 08 00 01 00 00 00 02 C0 80", false, Err((11, 0))),
    ("00 04 00 01 00 05", false, Err((32, 0))),
    ("00 04 00 01 00 05", true, Err((32, 0))),
    (
        "00 04 00 01 00 05 61 62 63 64 65 00 00",
        false,
        Err((32, 0)),
    ),
    // The length of a value, of a key and of a second key.
    ("00 05 00 01 00 00 00 00", false, Err((32, 0))),
    ("00 03 00 01 00", true, Err((32, 0))),
    ("00 06 00 02 00 00 00 00", false, Err((32, 0))),
    // A part's own test comes after its end's, and before the next part's.
    ("00 05 00 01 00 02 C0 80 00 00", false, Err((32, 0))),
    ("00 06 00 01 00 02 C0 80 00 00", false, Err((10, 0))),
    // The pairs end early: by a byte, and by a whole pair.
    ("00 07 00 01 00 00 00 00 00", false, Err((14, 0))),
    ("00 0B 00 01 00 00 00 00 00 01 61 00 00", true, Err((14, 0))),
    ("", false, Err((2, 2))),
    ("00", false, Err((2, 2))),
    ("00 02", false, Err((2, 4))),
    ("00 02 00", true, Err((2, 4))),
];

pub fn sections_at_start_0(codec: &impl Codec) -> u64 {
    for (row, (bytes, strict, wanted)) in AT_START_0.into_iter().enumerate() {
        let mut table = [7u32; 9];
        let answer = codec.read_section(&hex(bytes), 0, strict, &mut table);
        assert_eq!(answer, wanted, "row {row}: {bytes}");
        match wanted {
            Ok((1, _)) => assert_eq!(table, [6, 0, 8, 0, 7, 7, 7, 7, 7], "row {row}"),
            _ => assert_eq!(table, [7; 9], "row {row}"),
        }
        // One pair needs four numbers; three are refused, last of all.
        let short = match wanted {
            Ok((count, _)) if count > 0 => Err((22, 0)),
            wanted => wanted,
        };
        let mut table = [7u32; 3];
        let answer = codec.read_section(&hex(bytes), 0, strict, &mut table);
        assert_eq!(answer, short, "row {row}: short table");
        assert_eq!(table, [7; 3]);
    }
    2 * AT_START_0.len() as u64
}

/// One pair with an empty key and a value of `a`, taking `bytes` in all.
fn long_section(bytes: usize, stored: u16) -> Vec<u8> {
    let value = bytes - 4;
    let mut section = stored.to_be_bytes().to_vec();
    section.extend([0, 1, 0, 0]);
    section.extend((value as u16).to_be_bytes());
    section.extend(vec![b'a'; value]);
    section
}

pub fn the_longest_pairs(codec: &impl Codec) -> u64 {
    let mut table = [0u32; 4];
    let mut compared = 0;
    let longest = long_section(65_533, 65_535);
    assert_eq!(
        codec.read_section(&longest, 0, true, &mut table),
        Ok((1, 65_537))
    );
    assert_eq!(table, [6, 0, 8, 65_529]);
    compared += 1;
    // No stored length is that of one byte more; of one byte less it is.
    for stored in [65_535, 65_534, 3] {
        let too_long = long_section(65_534, stored);
        assert_eq!(
            codec.read_section(&too_long, 0, false, &mut table),
            Err((32, 0))
        );
        compared += 1;
    }
    let mut early = long_section(65_532, 65_535);
    early.push(b'a');
    assert_eq!(
        codec.read_section(&early, 0, false, &mut table),
        Err((14, 0))
    );
    compared += 1;
    // On writing, the value's length decides, and 13 is what is refused.
    let text = vec![b'a'; 65_530];
    let mut out = vec![0u8; 70_000];
    assert_eq!(
        codec.write_section(&text, &[0, 0, 0, 65_529], &mut out),
        Ok(65_537)
    );
    assert_eq!(out[..65_537], longest);
    compared += 1;
    let refused = codec.write_section(&text, &[0, 0, 0, 65_530], &mut out);
    assert_eq!(refused, Err((13, 0)));
    compared + 1
}

pub fn keys_that_begin_one_another_differ(codec: &impl Codec) -> u64 {
    // Keys "a", "ab", "" and "b", all without a value.
    let section = hex("00 16 00 04 00 01 61 00 00 00 02 61 62 00 00 00 00 00 00 00 01 62 00 00");
    let mut table = [0u32; 16];
    assert_eq!(
        codec.read_section(&section, 0, false, &mut table),
        Ok((4, 24))
    );
    let rows = [
        ("a", true),
        ("ab", true),
        ("", true),
        ("b", true),
        ("abc", false),
        ("c", false),
    ];
    for (key, found) in rows {
        let answer = codec.find(&section, 0, key.as_bytes());
        assert_eq!(answer.is_ok(), found, "{key}");
        assert_eq!(answer.err(), (!found).then_some((29, 0)));
    }
    rows.len() as u64 + 1
}

const ONE: &str = "00 01 00 02 70 31 00 01 61 00 03 AA BB CC";
const EQUAL: &str = "00 02 00 01 70 00 00 00 00 00 01 70 00 00 00 00";

/// Key sections and the maximum.
const KEY_SECTIONS: [(&str, Option<u64>, Section); 14] = [
    ("00 00", None, Err((38, 0))),
    ("00 00", Some(0), Err((38, 0))),
    (ONE, None, Ok((1, 14))),
    (ONE, Some(1), Ok((1, 14))),
    (ONE, Some(u64::MAX), Ok((1, 14))),
    (ONE, Some(0), Err((15, 0))),
    (EQUAL, None, Ok((2, 16))),
    (EQUAL, Some(1), Err((15, 0))),
    // The count alone is enough for 15.
    ("00 01", Some(0), Err((15, 0))),
    ("00 01", Some(1), Err((2, 4))),
    ("00", Some(0), Err((2, 2))),
    ("00 01 00 01 80 00 00 00 00", None, Err((16, 0))),
    ("00 01 00 01 80", None, Err((16, 0))),
    ("00 01 00 00 00 01 80 00 01 80", None, Ok((1, 10))),
];

pub fn key_sections(codec: &impl Codec) -> u64 {
    for (row, (bytes, max, wanted)) in KEY_SECTIONS.into_iter().enumerate() {
        let mut table = [9u32; 12];
        assert_eq!(
            codec.read_keys(&hex(bytes), 0, max, &mut table),
            wanted,
            "row {row}"
        );
        let kept = wanted.map_or(0, |(count, _)| 6 * count as usize);
        assert!(table[kept..].iter().all(|&number| number == 9), "row {row}");
        if let Ok((count, _)) = wanted {
            let mut table = vec![9u32; 6 * count as usize - 1];
            let answer = codec.read_keys(&hex(bytes), 0, max, &mut table);
            assert_eq!(answer, Err((23, 0)), "row {row}");
            assert!(table.iter().all(|&number| number == 9), "row {row}");
        }
    }
    let mut table = [0u32; 6];
    assert!(codec.read_keys(&hex(ONE), 0, None, &mut table).is_ok());
    assert_eq!(table, [4, 2, 8, 1, 11, 3]);
    KEY_SECTIONS.len() as u64 + 1
}

/// A message, a start, the key asked for, and the refusal.
type Asked<'a> = (&'a [u8], u64, &'a [u8], Refused);

pub fn find_gives_the_value_and_its_companion_the_part(codec: &impl Codec) -> u64 {
    let bytes = hex("FF 00 0C 00 01 00 04 6C 61 6E 67 00 02 63 79");
    assert_eq!(codec.find(&bytes, 1, b"lang"), Ok((13, 2)));
    assert_eq!(codec.find_part(&bytes, 1, b"lang"), b"cy");
    let rows: [Asked; 8] = [
        (&bytes, 1, b"lan", (29, 0)),
        (&bytes, 1, b"langs", (29, 0)),
        (&bytes, 1, b"", (29, 0)),
        (&bytes, 1, b"\xFF", (29, 0)),
        (&bytes, 0, b"lang", (2, 65_282)),
        (&bytes, 15, b"lang", (2, 17)),
        (&bytes, 1 << 32, b"lang", (1, 0)),
        (&[0, 2, 0, 0], 0, b"lang", (29, 0)),
    ];
    for (message, start, key, wanted) in rows {
        assert_eq!(codec.find(message, start, key), Err(wanted));
        let part = codec.find_part(message, start, key);
        assert!(part.is_empty() && part.as_ptr() == message.as_ptr());
    }
    rows.len() as u64 + 1
}
