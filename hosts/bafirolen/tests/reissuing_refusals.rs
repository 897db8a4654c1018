//! What is refused of a draft that is to be reissued, and of what is added to it,
//! in the order of the tests, and that no byte of the output has changed then.

mod common;

use bafirolen::*;
use common::{header_of, H};
use std::collections::BTreeSet;

const BYTES: [u8; 64] = [7; 64];

const ADDED: Reissue = Reissue {
    suite: 0x0478,
    message_id: BYTES.split_at(32).0,
    suite_data: BYTES.split_at(32).1,
};

/// With everything to refuse: another suite, a short ID and short data.
const FAULTY: Reissue = Reissue {
    suite: 0x0479,
    message_id: &[7; 16],
    suite_data: &[],
};

/// The longest that is reissued here.
const ROOM: usize = 128;

/// What is answered with room for the body, which the length is asked for first:
/// the same, and where it is a refusal, nothing has changed, with room or without.
fn answer(message: &[u8], start: u64, reissue: &Reissue) -> Result<usize, Refusal> {
    let told = reissued_header_body_len(message, start, reissue);
    let mut out = [0xEE; ROOM];
    assert_eq!(reissue_header_body(message, start, reissue, &mut out), told);
    let none = reissue_header_body(message, start, reissue, &mut []);
    if told.is_ok() {
        assert_eq!(none, Err(Refusal::OutputTooShort));
    } else {
        assert_eq!((none, out), (told, [0xEE; ROOM]));
    }
    told
}

/// What document 02 says of a draft with nothing wrong in what is added, by what
/// reading version 1 only gives: its refusal, 20, or 42 bytes more.
fn reader(message: &[u8], start: u64) -> Result<usize, Refusal> {
    let (mut pairs, mut keys) = ([0; 400], [0; 400]);
    let request = Request::default().only(Which::V1Only);
    let body = read_header_body(message, start, request, &mut pairs, &mut keys)?;
    let numbers = body.numbers;
    if (numbers.content_type == NON_FRAMED) != (numbers.frame_length == 0) {
        return Err(Refusal::FrameLength);
    }
    let more = if numbers.form == Form::Old { 40 } else { 42 };
    Ok((body.tail - start) as usize + more)
}

/// Drafts with one fault, by the number that it is refused by.
fn faults() -> Vec<(u32, Vec<u8>)> {
    let (context, keys) = (&H[20..34], &H[34..48]);
    let with = |place: usize, byte: u8| {
        let mut draft = H.to_vec();
        draft[place] = byte;
        draft
    };
    let of = |context: &[u8], keys: &[u8]| header_of(1, context, keys);
    vec![
        (2, of(context, b"\0\x02\0\0\0\0\xFF\xFF")),
        (3, with(0, 3)),
        (4, header_of(2, context, keys)),
        (5, with(1, 0x81)),
        (6, with(3, 0x79)),
        (7, with(2, 5)),
        (32, of(b"\0\x04\0\x01\0\x05", keys)),
        (8, of(&[0, 2, 0, 1], keys)),
        (9, of(&[0, 4, 0, 0, 0, 0], keys)),
        (10, of(b"\0\x07\0\x01\0\x01\xFF\0\0", keys)),
        (11, of(b"\0\x07\0\x01\0\0\0\x01\xFF", keys)),
        (12, of(b"\0\x0A\0\x02\0\0\0\0\0\0\0\0", keys)),
        (14, of(b"\0\x07\0\x01\0\0\0\0x", keys)),
        (38, of(context, &[0, 0])),
        (16, of(context, b"\0\x01\0\x01\xFF\0\0\0\0")),
        (17, with(48, 3)),
        (18, with(52, 1)),
        (19, with(53, 13)),
        (20, with(48, 1)),
        (20, with(56, 0)),
    ]
}

/// Those of the draft come before any of what is added, from any start.
#[test]
fn of_the_draft() {
    let mut seen = BTreeSet::new();
    for (number, draft) in faults() {
        for start in [0, 1, 30] {
            let message = [vec![2; start], draft.clone()].concat();
            let start = start as u64;
            let refusal = reader(&message, start).unwrap_err();
            assert_eq!(refusal.number(), number);
            assert_eq!(answer(&message, start, &ADDED), Err(refusal));
            assert_eq!(answer(&message, start, &FAULTY), Err(refusal));
        }
        seen.insert(number);
    }
    let listed = [
        2, 3, 4, 5, 6, 7, 32, 8, 9, 10, 11, 12, 14, 38, 16, 17, 18, 19, 20,
    ];
    assert_eq!(seen, BTreeSet::from(listed));
}

/// A body of version 2 is refused right behind its first byte: alone, whole, and
/// with whatever follows.
#[test]
fn of_version_2() {
    let refused = Err(Refusal::OtherVersion);
    let whole = header_of(2, &H[20..34], &H[34..48]);
    for message in [&[2][..], &[2, 0xFF], &[2, 0x80, 0x01, 0x78], &whole] {
        for reissue in [ADDED, FAULTY] {
            assert_eq!(answer(message, 0, &reissue), refused);
        }
    }
    // Nor is it waited for.
    for length in 1..whole.len() {
        assert_eq!(answer(&whole[..length], 0, &ADDED), refused);
    }
}

/// Where the fields of H end, one by one; the context section is awaited whole.
const ENDS: [u64; 17] = [
    1, 2, 4, 20, 22, 34, 36, 38, 40, 42, 43, 45, 48, 49, 53, 54, 58,
];

/// Every cut of H wants the end of the field that is not all there.
#[test]
fn cuts_of_h() {
    for start in [0, 5] {
        let message = [&[1; 5][..start], H].concat();
        for cut in 0..58 {
            let end = ENDS.iter().find(|end| **end > cut as u64).unwrap();
            let position = start as u64 + end;
            let refused = Err(Refusal::Shortage { position });
            let held = &message[..start + cut];
            for reissue in [ADDED, FAULTY] {
                assert_eq!(answer(held, start as u64, &reissue), refused);
            }
        }
        assert_eq!(answer(&message, start as u64, &ADDED), Ok(100));
    }
}

/// A start behind the message: the first byte there is wanted.
#[test]
fn starts_behind_the_message() {
    for start in [58, 59, 1_000, 0xFFFF_FFFF] {
        let position = start + 1;
        let refused = Err(Refusal::Shortage { position });
        assert_eq!(answer(H, start, &ADDED), refused);
        assert_eq!(answer(H, start, &FAULTY), refused);
    }
    for start in [1 << 32, (1 << 32) + 58, u64::MAX] {
        let refused = Err(Refusal::NotAddressable);
        assert_eq!(answer(H, start, &ADDED), refused);
        assert_eq!(answer(&[2], start, &FAULTY), refused);
    }
}

/// Every byte of a draft with every value: as reading version 1 only says.
#[test]
fn changed_bytes() {
    let keys = b"\0\x02\0\x01p\0\0\0\x01\xAA\0\x02p1\0\x01a\0\0";
    for context in [&[0, 0][..], &[0, 2, 0, 0], &H[20..34]] {
        let draft = header_of(1, context, keys);
        for place in 0..draft.len() {
            for byte in 0..=255 {
                let mut message = draft.clone();
                message[place] = byte;
                let wanted = reader(&message, 0);
                assert_eq!(answer(&message, 0, &ADDED), wanted);
            }
        }
    }
}

/// What is added, with every two faults and more: 20 of the draft first, then 6
/// or 7, 24, 25 and 28.
#[test]
fn of_what_is_added() {
    let mut other_length = *H;
    other_length[48] = 1;
    let suites = [
        (0x0478, None),
        (0x0578, None),
        (0x0000, Some(6)),
        (0x0479, Some(6)),
        (0x1_0478, Some(6)),
        (0xFFFF_FFFF, Some(6)),
        (0x0014, Some(7)),
        (0x0378, Some(7)),
    ];
    for (draft, of_draft) in [(H, None), (&other_length, Some(20))] {
        for (suite, of_suite) in suites {
            for id in [0, 16, 31, 32, 33, 64] {
                for data in [0, 16, 31, 32, 33, 64] {
                    let reissue = Reissue {
                        suite,
                        message_id: &BYTES[..id],
                        suite_data: &BYTES[..data],
                    };
                    let of_id = (id != 32).then_some(24);
                    let of_data = (data != 32).then_some(25);
                    let first = of_draft.or(of_suite).or(of_id).or(of_data);
                    let wanted = match first {
                        None => Ok(100),
                        Some(number) => Err(Refusal::from_number(number, 0)),
                    };
                    assert_eq!(answer(draft, 0, &reissue), wanted);
                }
            }
        }
    }
}

/// The suites of version 1 in their order.
const V1_SUITES: [u32; 9] = [
    0x0014, 0x0046, 0x0078, 0x0114, 0x0146, 0x0178, 0x0214, 0x0346, 0x0378,
];

/// Every suite of 16 bits as the draft's own, and of 17 bits as the new one: each
/// is refused where it is not of the version that is wanted there.
#[test]
fn every_suite() {
    let unknown = Err(Refusal::UnknownSuite);
    let other = Err(Refusal::SuiteOfOtherVersion);
    for suite in 0..0x2_0000_u32 {
        let (first, second) = (V1_SUITES.contains(&suite), matches!(suite, 0x0478 | 0x0578));
        let answers = match (first, second) {
            (true, _) => [Ok(100), other],
            (_, true) => [other, Ok(100)],
            _ => [unknown; 2],
        };
        let reissue = Reissue { suite, ..ADDED };
        assert_eq!(answer(H, 0, &reissue), answers[1]);
        if let Ok(suite) = u16::try_from(suite) {
            let mut draft = *H;
            draft[2..4].copy_from_slice(&suite.to_be_bytes());
            assert_eq!(answer(&draft, 0, &ADDED), answers[0]);
        }
    }
}

/// A long ID or long data: what 8 or 16 bits keep of the length is 32.
#[test]
fn long_parts() {
    let long = [7; 65_568];
    for length in [288, 65_568] {
        let id = Reissue {
            message_id: &long[..length],
            ..ADDED
        };
        assert_eq!(answer(H, 0, &id), Err(Refusal::IdLength));
        let data = Reissue {
            suite_data: &long[..length],
            ..ADDED
        };
        assert_eq!(answer(H, 0, &data), Err(Refusal::SuiteDataLength));
    }
}

/// As long as a message may be, with the draft at its end, and one byte longer.
/// Nearly all of it is never touched, so that it takes no memory.
#[test]
fn four_gibibytes() {
    let mut message = vec![0; 1 << 32];
    let start = message.len() - 1 - H.len();
    message[start..][..58].copy_from_slice(H);
    let refused = Err(Refusal::NotAddressable);
    for reissue in [ADDED, FAULTY] {
        assert_eq!(answer(&message, start as u64, &reissue), refused);
    }
    let whole = &message[..message.len() - 1];
    assert_eq!(answer(whole, start as u64, &ADDED), Ok(100));
    let position = whole.len() as u64;
    let cut = answer(&whole[..whole.len() - 1], start as u64, &ADDED);
    assert_eq!(cut, Err(Refusal::Shortage { position }));
}
