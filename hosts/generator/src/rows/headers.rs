//! Whole headers read.

use super::{Asked, Body, Codec, Refused};
use crate::headers::{header_h, header_h_refused, header_h_with, hex};

/// A header of version 2 with an empty context and one key; 85 bytes.
pub fn header_v2() -> Vec<u8> {
    let mut bytes = hex("02 05 78");
    bytes.extend(32..64u8);
    bytes.extend(hex("00 00 00 01 00 01 70 00 00 00 02 AA BB 01 00 00 00 00"));
    bytes.extend(64..96u8);
    bytes
}

fn read(codec: &impl Codec, message: &[u8], asked: Asked) -> Result<Body, Refused> {
    let (mut pairs, mut keys) = ([0; 8], [0; 12]);
    codec.read_body(message, asked, &mut pairs, &mut keys)
}

pub fn header_h_is_read_whole(codec: &impl Codec) -> u64 {
    let h = header_h();
    assert_eq!(h.len(), 58);
    let (mut pairs, mut keys) = ([5; 6], [5; 7]);
    let mut compared = 0;
    for (version, strict) in [(0, false), (0, true), (1, false), (1, true)] {
        let asked = Asked {
            max: Some(1),
            ..Asked::new(version, strict)
        };
        let body = codec.read_body(&h, asked, &mut pairs, &mut keys);
        let wanted = Body {
            numbers: [1, 0x80, 0x0178, 2, 12, 4096, 0],
            id: (4, 16),
            pairs: 1,
            keys: 1,
            suite_data: (0, 0),
            tail: 58,
        };
        assert_eq!(body, Ok(wanted));
        assert_eq!(pairs, [26, 4, 32, 2, 5, 5]);
        assert_eq!(keys, [38, 2, 42, 1, 45, 3, 5]);
        compared += 1;
    }
    let other = read(codec, &h, Asked::new(2, false));
    assert_eq!(other, Err((4, 0)));
    compared + 1
}

pub fn header_h_cut_and_moved(codec: &impl Codec) -> u64 {
    let (h, rows) = (header_h(), header_h_refused());
    for (message, start, wanted) in &rows {
        let asked = Asked {
            start: *start,
            ..Asked::new(0, false)
        };
        assert_eq!(read(codec, message, asked), Err(*wanted));
        assert_eq!(codec.host_answer(message, *start), *wanted);
    }
    // Every cut: the end of the read that meets it, in order.
    let stops = [
        1, 2, 4, 20, 22, 34, 36, 38, 40, 42, 43, 45, 48, 49, 53, 54, 58,
    ];
    for cut in 0..58 {
        let wanted = stops.into_iter().find(|&stop| stop > cut as u64).unwrap();
        let answer = read(codec, &h[..cut], Asked::new(0, true));
        assert_eq!(answer, Err((2, wanted)), "cut {cut}");
    }
    rows.len() as u64 + 58
}

pub fn an_empty_context_has_two_forms(codec: &impl Codec) -> u64 {
    let today = header_h_with("00 00");
    let old = header_h_with("00 02 00 00");
    assert_eq!((today.len(), old.len()), (46, 48));
    let mut compared = 0;
    for version in [0, 1] {
        for (message, tail, form) in [(&today, 46, 0), (&old, 48, 1)] {
            let body = read(codec, message, Asked::new(version, false)).unwrap();
            assert_eq!(
                (body.pairs, body.keys, body.tail, body.numbers[4]),
                (0, 1, tail, 12)
            );
            assert_eq!(body.numbers[6], form);
            compared += 1;
        }
        let strict = Asked::new(version, true);
        let body = read(codec, &today, strict).unwrap();
        assert_eq!(body.numbers[6], 0);
        assert_eq!(read(codec, &old, strict), Err((21, 0)));
        compared += 2;
    }
    compared
}

/// Version, place, byte, either-version reader, one-version reader.
type Field = (u32, usize, u8, u32, u32);

const FIELDS: [Field; 21] = [
    (1, 0, 0, 3, 3),
    (1, 0, 3, 3, 3),
    (1, 0, 2, 6, 4),
    (1, 1, 0x81, 5, 5),
    (1, 3, 0x79, 6, 6),
    (1, 2, 0x04, 7, 7),
    (1, 2, 0x05, 7, 7),
    (1, 35, 0, 38, 38),
    (1, 48, 0, 17, 17),
    (1, 48, 3, 17, 17),
    (1, 48, 1, 20, 0),
    (1, 49, 1, 18, 18),
    (1, 52, 1, 18, 18),
    (1, 53, 13, 19, 19),
    (1, 56, 0, 20, 0),
    (2, 0, 1, 5, 4),
    (2, 1, 0x01, 7, 7),
    (2, 2, 0x79, 6, 6),
    (2, 38, 0, 38, 38),
    (2, 48, 2, 20, 0),
    (2, 52, 1, 20, 0),
];

/// H or the header of version 2 with one byte set: the refusal of each field,
/// by the readers of either version and of one.
pub fn each_field_is_tested(codec: &impl Codec) -> u64 {
    for (row, (version, at, byte, either, one)) in FIELDS.into_iter().enumerate() {
        let mut message = if version == 1 {
            header_h()
        } else {
            header_v2()
        };
        message[at] = byte;
        for (version, number) in [(0, either), (version, one)] {
            let answer = read(codec, &message, Asked::new(version, false));
            match number {
                0 => assert!(answer.is_ok(), "row {row}: {answer:?}"),
                _ => assert_eq!(answer, Err((number, 0)), "row {row}"),
            }
        }
    }
    2 * FIELDS.len() as u64
}

pub fn tables_are_tested_last(codec: &impl Codec) -> u64 {
    let h = header_h();
    let mut short = h.clone();
    short[56] = 0;
    let rows = [
        (&h, 3, 5, 22),
        (&h, 4, 5, 23),
        (&h, 3, 6, 22),
        (&h, 4, 6, 0),
        (&short, 0, 0, 20),
    ];
    for (message, pairs, keys, wanted) in rows {
        let (mut pairs, mut keys) = (vec![5; pairs], vec![5; keys]);
        let answer = codec.read_body(message, Asked::new(0, false), &mut pairs, &mut keys);
        assert_eq!(answer.err().map_or(0, |refused| refused.0), wanted);
        if wanted != 0 {
            assert!(pairs.iter().chain(&keys).all(|&number| number == 5));
        }
    }
    rows.len() as u64
}
