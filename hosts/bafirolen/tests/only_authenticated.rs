//! The pairs of required keys, as the safe function writes them: sorted, and
//! from the context of a header that was read.

mod common;

use bafirolen::*;
use common::H;

/// Four pairs: `b` and `w`, `ab` and nothing, `a` and `v`, the empty key and
/// `e`.
const SECTION: &[u8; 27] = b"\x00\x19\x00\x04\
    \x00\x01b\x00\x01w\x00\x02ab\x00\x00\x00\x01a\x00\x01v\x00\x00\x00\x01e";

/// What is written for the keys, whose bytes stand one after the other.
fn written(section: &[u8], keys: &[&[u8]]) -> Vec<u8> {
    let text = keys.concat();
    let mut required = Vec::new();
    let mut start = 0;
    for key in keys {
        required.extend([start, key.len() as u32]);
        start += key.len() as u32;
    }
    let mut out = vec![0xEE; section.len()];
    let length = write_only_authenticated(section, 0, &text, &required, &mut out).unwrap();
    assert!(out[length..].iter().all(|byte| *byte == 0xEE));
    out.truncate(length);
    out
}

#[test]
fn sorted_by_their_keys() {
    let all = b"\x00\x04\x00\x00\x00\x01e\x00\x01a\x00\x01v\x00\x02ab\x00\x00\x00\x01b\x00\x01w";
    assert_eq!(written(SECTION, &[b"b", b"ab", b"a", b""]), all);
    assert_eq!(written(SECTION, &[b"", b"a", b"ab", b"b"]), all);
    let two = b"\x00\x02\x00\x01a\x00\x01v\x00\x02ab\x00\x00";
    assert_eq!(written(SECTION, &[b"ab", b"a"]), two);
}

/// A required key that is absent or named twice changes nothing, and it may be
/// any bytes.
#[test]
fn absent_and_repeated_keys() {
    let one = b"\x00\x01\x00\x01b\x00\x01w";
    assert_eq!(written(SECTION, &[b"b"]), one);
    assert_eq!(written(SECTION, &[b"b", b"abc", b"b", b"\xFF"]), one);
    assert_eq!(written(SECTION, &[b"abc", b"\xFF"]), b"");
    assert_eq!(written(SECTION, &[]), b"");
    for empty in [&[0, 0][..], &[0, 2, 0, 0]] {
        assert_eq!(written(empty, &[b"b", b""]), b"");
    }
}

#[test]
fn of_a_header_that_was_read() {
    let (mut pairs, mut keys) = ([0; 4], [0; 6]);
    let body = read_header_body(H, 0, Request::default(), &mut pairs, &mut keys).unwrap();
    let mut out = [0xEE; 14];
    // The key is lent by its place in the message.
    let required = &body.pair_table()[..2];
    let length = write_only_authenticated(H, body.context_start(), H, required, &mut out);
    assert_eq!(length, Ok(12));
    assert_eq!(out[..12], H[22..34]);
    assert_eq!(out[12..], [0xEE; 2]);
}

#[test]
fn refused() {
    let mut out = [0xEE; 32];
    let mut answer = |section: &[u8], start: u64, required: &[u32], room: usize| {
        let answer = write_only_authenticated(section, start, b"ab", required, &mut out[..room]);
        assert_eq!(out, [0xEE; 32]);
        answer.unwrap_err()
    };
    // A section that breaks off comes before an odd table, and that before an
    // output that is too short.
    let cut = answer(&SECTION[..26], 0, &[0, 1, 0], 0);
    assert_eq!(cut, Refusal::Shortage { position: 27 });
    assert_eq!(answer(SECTION, 1 << 32, &[0], 0), Refusal::NotAddressable);
    for required in [&[0][..], &[0, 1, 0], &[2, 1], &[3, 0], &[1, u32::MAX]] {
        let refusal = answer(SECTION, 0, required, 0);
        assert_eq!(refusal, Refusal::RequiredTableOrPlace);
        assert_eq!(refusal.number(), 31);
    }
    assert_eq!(answer(SECTION, 0, &[0, 1], 7), Refusal::OutputTooShort);
}
