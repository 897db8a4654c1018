//! Authentication records.

use super::{Codec, Refused};

/// Start, suite, message length, and the refusal.
const READ: [(u64, u32, usize, Option<Refused>); 8] = [
    (0, 0x0014, 29, None),
    (2, 0x0014, 29, Some((2, 30))),
    (18, 0x0014, 29, Some((2, 30))),
    (0, 0x0014, 11, Some((2, 12))),
    (0, 0x0014, 12, Some((2, 28))),
    (0, 0x0578, 15, Some((2, 16))),
    (0, 0x0579, 0, Some((6, 0))),
    (1 << 32, 0x0579, 29, Some((1, 0))),
];

/// Suite, lengths of IV, tag and output, and the answer.
type Row = (u32, usize, usize, usize, Result<u64, u32>);

const WRITTEN: [Row; 10] = [
    (0x0014, 12, 16, 28, Ok(28)),
    (0x0014, 12, 16, 27, Err(28)),
    (0x0478, 12, 16, 16, Ok(16)),
    (0x0478, 12, 16, 15, Err(28)),
    (0x0478, 11, 16, 16, Err(19)),
    (0x0478, 0, 15, 16, Err(19)),
    (0x0014, 13, 16, 40, Err(19)),
    (0x0014, 12, 15, 40, Err(30)),
    (0x0014, 12, 17, 0, Err(30)),
    (0x0015, 0, 0, 0, Err(6)),
];

pub fn authentication_records(codec: &impl Codec) -> u64 {
    let bytes: Vec<u8> = (1..=29).collect();
    let (iv, tag, tail) = codec.read_record(&bytes, 1, 0x0014).unwrap();
    assert_eq!(
        (&iv[..], &tag[..], tail),
        (&bytes[1..13], &bytes[13..29], 29)
    );
    let (iv, tag, tail) = codec.read_record(&bytes, 1, 0x0478).unwrap();
    assert_eq!((&iv[..], &tag[..], tail), (&[0; 12][..], &bytes[1..17], 17));
    for (start, suite, length, wanted) in READ {
        let answer = codec.read_record(&bytes[..length], start, suite);
        assert_eq!(
            answer.err(),
            wanted,
            "start {start}, suite {suite:x}, {length}"
        );
    }
    for (suite, iv, tag, room, wanted) in WRITTEN {
        let mut out = vec![0xEE; room];
        let answer = codec.write_record(suite, &bytes[..iv], &bytes[12..12 + tag], &mut out);
        assert_eq!(answer, wanted.map_err(|number| (number, 0)));
        let image = match wanted {
            Ok(28) => &bytes[..28],
            Ok(_) => &bytes[12..28],
            Err(_) => &[],
        };
        assert_eq!(out[..image.len()], *image);
        assert!(out[image.len()..].iter().all(|&byte| byte == 0xEE));
    }
    (READ.len() + WRITTEN.len() + 2) as u64
}
