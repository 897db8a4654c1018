//! Whole headers written.

use super::headers::header_v2;
use super::{Asked, Codec, Lent};
use crate::headers::header_h;
use std::ops::Range;

pub fn header_v2_is_read_and_written(codec: &impl Codec) -> u64 {
    let v2 = header_v2();
    let (mut pairs, mut keys) = ([0; 4], [0; 6]);
    let mut compared = 0;
    for version in [0, 2] {
        let body = codec
            .read_body(&v2, Asked::new(version, true), &mut pairs, &mut keys)
            .unwrap();
        assert_eq!(body.id, (3, 32));
        let [_, message_type, _, _, iv_length, frame_length, form] = body.numbers;
        assert_eq!((message_type, iv_length, frame_length), (0, 0, 0));
        assert_eq!(form, 0);
        assert_eq!(body.suite_data, (53, 32));
        assert_eq!(body.tail, v2.len() as u64);
        compared += 1;
        let lent = Lent {
            numbers: body.numbers,
            id: &v2[3..35],
            suite_data: &v2[53..],
            text: &v2,
            pairs: &[],
            keys: &keys,
        };
        let mut out = [0xEE; 100];
        assert_eq!(codec.body_len(lent), Ok(85));
        assert_eq!(codec.write_body(lent, &mut out), Ok(85));
        assert_eq!(out[..85], v2);
        compared += 2;
    }
    let other = codec.read_body(&v2, Asked::new(1, false), &mut pairs, &mut keys);
    assert_eq!(other, Err((4, 0)));
    compared + 1
}

/// Version, type, suite, content type, IV length, frame length and form of H.
const RIGHT: [u32; 7] = [1, 0x80, 0x0178, 2, 12, 4096, 0];

/// Numbers, the ID and the suite data as parts of H, and the refusal.
type Row = ([u32; 7], Range<usize>, Range<usize>, u32);

const FAULTS: [Row; 14] = [
    ([0, 0x80, 0x0178, 2, 12, 4096, 0], 4..20, 0..0, 3),
    ([2, 0x80, 0x0178, 2, 12, 4096, 0], 4..20, 0..0, 5),
    ([2, 0, 0x0178, 2, 12, 4096, 0], 4..20, 0..0, 7),
    ([1, 0, 0x0178, 2, 12, 4096, 0], 4..20, 0..0, 5),
    ([1, 0x80, 0x0179, 2, 12, 4096, 0], 4..20, 0..0, 6),
    ([1, 0x80, 0x0478, 2, 12, 4096, 0], 4..20, 0..0, 7),
    (RIGHT, 4..19, 0..0, 24),
    (RIGHT, 4..36, 0..0, 24),
    ([1, 0x80, 0x0178, 2, 12, 4096, 1], 4..20, 0..0, 33),
    ([1, 0x80, 0x0178, 3, 12, 4096, 0], 4..20, 0..0, 17),
    ([1, 0x80, 0x0178, 2, 0, 4096, 0], 4..20, 0..0, 19),
    (RIGHT, 4..20, 0..32, 25),
    ([1, 0x80, 0x0178, 1, 12, 4096, 0], 4..20, 0..0, 20),
    ([1, 0x80, 0x0178, 2, 12, 0, 0], 4..20, 0..0, 20),
];

pub fn header_h_is_written_with_each_fault(codec: &impl Codec) -> u64 {
    let h = header_h();
    let lent = |numbers, id: Range<usize>, suite_data: Range<usize>| Lent {
        numbers,
        id: &h[id],
        suite_data: &h[suite_data],
        text: &h,
        pairs: &[26, 4, 32, 2],
        keys: &[38, 2, 42, 1, 45, 3],
    };
    let write = |lent: Lent, room: usize| {
        let mut out = vec![0xEE; room];
        let answer = codec.write_body(lent, &mut out);
        match answer {
            Ok(length) => assert_eq!((length, &out[..58]), (58, &h[..])),
            Err(_) => assert!(out.iter().all(|&byte| byte == 0xEE)),
        }
        answer
    };
    let right = lent(RIGHT, 4..20, 0..0);
    assert_eq!(codec.body_len(right), Ok(58));
    assert_eq!(write(right, 58), Ok(58));
    assert_eq!(write(right, 57), Err((28, 0)));
    for (row, (numbers, id, data, number)) in FAULTS.into_iter().enumerate() {
        let lent = lent(numbers, id, data);
        assert_eq!(codec.body_len(lent), Err((number, 0)), "row {row}");
        assert_eq!(write(lent, 0), Err((number, 0)), "row {row}");
    }
    2 * FAULTS.len() as u64 + 3
}
