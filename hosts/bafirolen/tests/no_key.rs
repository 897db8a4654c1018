//! A header has at least one encrypted data key: without any it is refused by
//! 38, when it is read and when it is to be written.

mod common;

use bafirolen::*;
use common::{header_of, H};

const REFUSED: Refusal = Refusal::NoEncryptedDataKey;

/// A header with this context section and no key.
fn keyless(version: u8, context: &[u8]) -> Vec<u8> {
    header_of(version, context, &[0, 0])
}

/// The answer to a request of a message at a start, with tables that keep what
/// they held.
fn answer(message: &[u8], start: u64, request: Request) -> Refusal {
    let (mut pairs, mut keys) = ([7; 12], [7; 12]);
    let answer = read_header_body(message, start, request, &mut pairs, &mut keys);
    let refusal = answer.map(|body| body.tail).unwrap_err();
    assert_eq!((pairs, keys), ([7; 12], [7; 12]));
    refusal
}

/// Each reader that takes the version, in both modes.
fn requests(version: u8) -> [Request; 6] {
    let only = if version == 1 {
        Which::V1Only
    } else {
        Which::V2Only
    };
    let (either, one) = (Request::new(), Request::new().only(only));
    [
        either,
        either.strict(),
        either.at_most(0),
        one,
        one.strict(),
        one.at_most(0),
    ]
}

#[test]
fn what_is_to_be_done() {
    assert_eq!(REFUSED.number(), 38);
    assert_eq!(REFUSED.position(), 0);
    assert_eq!(REFUSED.remedy(), Remedy::Reject);
    assert_eq!(REFUSED.to_string(), "refusal 38: no encrypted data key");
    assert_eq!(Refusal::from_number(38, 0), REFUSED);
}

#[test]
fn bodies_read() {
    for version in [1, 2] {
        for context in [&[0, 0][..], &H[20..34]] {
            let header = keyless(version, context);
            let behind = [b"xyz", &header[..]].concat();
            let count_end = if version == 1 { 22 } else { 37 } + context.len();
            for request in requests(version) {
                assert_eq!(answer(&header, 0, request), REFUSED);
                assert_eq!(answer(&behind, 3, request), REFUSED);
                // As soon as the count is read, and no sooner.
                assert_eq!(answer(&header[..count_end], 0, request), REFUSED);
                let position = count_end as u64;
                let cut = answer(&header[..count_end - 1], 0, request);
                assert_eq!(cut, Refusal::Shortage { position });
            }
            assert_eq!(header_number(&header, 0), 38);
            assert_eq!(header_position(&header, 0), 0);
            assert_eq!(header_number(&behind, 3), 38);
        }
    }
    let mut out = [0xEE; 16];
    let listed = write_listing(&keyless(1, &[0, 0]), &mut out);
    assert_eq!(listed, Ok(13));
    assert_eq!(&out, b"refused\t38\t0\n\xEE\xEE\xEE");
}

/// Behind what is refused of the context, and before what is refused behind the
/// keys.
#[test]
fn bodies_read_with_two_faults() {
    for version in [1, 2] {
        for request in requests(version) {
            let seen = answer(&keyless(version, &[0, 2, 0, 1]), 0, request);
            assert_eq!(seen, Refusal::CountInEmptyContext);
            let old = answer(&keyless(version, &[0, 2, 0, 0]), 0, request);
            let strict = request.mode == Mode::Strict;
            assert_eq!(
                old,
                if strict {
                    Refusal::OldEmptyContext
                } else {
                    REFUSED
                }
            );
            let mut header = keyless(version, &[0, 0]);
            let content_type = if version == 1 { 24 } else { 39 };
            header[content_type] = 3;
            assert_eq!(answer(&header, 0, request), REFUSED);
        }
        let other = requests(3 - version)[3];
        let refused = answer(&keyless(version, &[0, 0]), 0, other);
        assert_eq!(refused, Refusal::OtherVersion);
    }
}

#[test]
fn sections_read() {
    for max in [None, Some(0), Some(1), Some(u64::MAX)] {
        let answer = |message: &[u8], start: u64| {
            let mut table = [7; 6];
            let read = read_encrypted_data_keys_section(message, start, max, &mut table);
            let refusal = read.map(|section| section.tail).unwrap_err();
            assert_eq!(table, [7; 6]);
            refusal
        };
        assert_eq!(answer(&[0, 0], 0), REFUSED);
        assert_eq!(answer(&[9, 9, 0, 0, 9], 2), REFUSED);
        assert_eq!(answer(&[0], 0), Refusal::Shortage { position: 2 });
        // 38 of a section without a key, and 15 of one with one.
        let full = [0, 1, 0, 0, 0, 0, 0, 0];
        let mut table = [7; 6];
        let read = read_encrypted_data_keys_section(&full, 0, max, &mut table);
        let tail = read.map(|section| section.tail);
        let refused = Err(Refusal::TooManyKeys);
        assert_eq!(tail, if max == Some(0) { refused } else { Ok(8) });
    }
}

/// With room and without; a table that is not in sixes is no empty one, and a
/// key of empty parts is a key.
#[test]
fn sections_written() {
    let mut out = [0xEE; 10];
    for room in 0..=10 {
        let out = &mut out[..room];
        let written = write_encrypted_data_keys_section(H, &[], out);
        assert_eq!(written, Err(REFUSED));
        let part = write_encrypted_data_keys_section(H, &[0; 5], out);
        assert_eq!(part, Err(Refusal::TableOrPlace));
    }
    assert_eq!(out, [0xEE; 10]);
    let written = write_encrypted_data_keys_section(b"", &[0; 6], &mut out);
    assert_eq!(written, Ok(8));
    assert_eq!(&out, b"\0\x01\0\0\0\0\0\0\xEE\xEE");
}

/// What is refused of a draft without keys, which the length says before, and
/// the vector of both.
fn refused(draft: &Draft) -> Refusal {
    let mut out = [0xEE; 100];
    let refusal = write_header_body(draft, &mut out).unwrap_err();
    assert_eq!(out, [0xEE; 100]);
    assert_eq!(write_header_body(draft, &mut []), Err(refusal));
    assert_eq!(header_body_len(draft), Err(refusal));
    #[cfg(feature = "alloc")]
    assert_eq!(header_body_to_vec(draft), Err(refusal));
    refusal
}

/// Behind what is refused of the pairs, and before what is refused behind the
/// keys.
#[test]
fn bodies_written() {
    let pair = &[26, 4, 32, 2];
    for form in [Form::Today, Form::Old] {
        let first = Numbers::version_1(0x0178, FRAMED, 4_096).with_form(form);
        let second = Numbers::version_2(0x0578, NON_FRAMED, 0).with_form(form);
        let bare = Draft::new(first, &H[4..20]);
        assert_eq!(refused(&bare), REFUSED);
        let of_version_2 = Draft::new(second, &H[..32]).with_suite_data(&H[..32]);
        assert_eq!(refused(&of_version_2), REFUSED);
        let old = form == Form::Old;
        let paired = refused(&bare.with_tables(H, pair, &[]));
        assert_eq!(paired, if old { Refusal::PairInOldForm } else { REFUSED });
        let short = refused(&bare.with_tables(H, &pair[..3], &[]));
        assert_eq!(short, Refusal::TableOrPlace);
        assert_eq!(refused(&Draft::new(first, &H[4..19])), Refusal::IdLength);
        assert_eq!(refused(&bare.with_suite_data(H)), REFUSED);
        for change in [
            |numbers: &mut Numbers| numbers.content_type = 3,
            |numbers: &mut Numbers| numbers.header_iv_length = 0,
            |numbers: &mut Numbers| numbers.frame_length = 0,
        ] {
            let mut draft = bare;
            change(&mut draft.numbers);
            assert_eq!(refused(&draft), REFUSED);
        }
    }
}
