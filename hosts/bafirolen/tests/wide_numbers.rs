//! Numbers that agree with the right one in their lowest byte or bytes: each
//! is refused, and none is cut to what its field holds.

use bafirolen::{header_body_len, read_header_auth_tag, write_header_auth_tag, write_header_body};
use bafirolen::{Draft, Form, Numbers};

/// Those of document 01's header H.
const H: Numbers = Numbers::version_1(0x0178, 2, 4_096);

/// What writing them with no pair and one key answers: a refusal's number, or
/// 0. A refusal leaves the output. The length, asked before, is answered alike.
fn answer(numbers: Numbers) -> u32 {
    let mut out = [0xEE; 64];
    let draft = Draft::new(numbers, &[0; 16]).with_tables(b"p1", &[], &[0, 2, 2, 0, 2, 0]);
    let answer = write_header_body(&draft, &mut out);
    assert_eq!(header_body_len(&draft), answer);
    match answer {
        Ok(length) => {
            assert_eq!((length, out[0]), (42, 1));
            0
        }
        Err(refusal) => {
            assert_eq!(out, [0xEE; 64]);
            refusal.number()
        }
    }
}

#[test]
fn numbers_that_a_version_has() {
    assert_eq!((H.version, H.message_type, H.suite), (1, 0x80, 0x0178));
    assert_eq!((H.content_type, H.header_iv_length), (2, 12));
    assert_eq!((H.frame_length, H.form), (4_096, Form::Today));
    let second = Numbers::version_2(0x0478, 1, 0);
    assert_eq!((second.version, second.message_type), (2, 0));
    assert_eq!((second.suite, second.content_type), (0x0478, 1));
    assert_eq!((second.header_iv_length, second.frame_length), (0, 0));
    assert_eq!(second.form, Form::Today);
}

#[test]
fn numbers_of_a_body() {
    let changed = |change: fn(&mut Numbers)| {
        let mut numbers = H;
        change(&mut numbers);
        answer(numbers)
    };
    assert_eq!(answer(H), 0);
    assert_eq!(changed(|numbers| numbers.version = 257), 3);
    assert_eq!(changed(|numbers| numbers.message_type = 0x180), 5);
    assert_eq!(changed(|numbers| numbers.suite = 0x1_0178), 6);
    assert_eq!(changed(|numbers| numbers.content_type = 0x102), 17);
    assert_eq!(changed(|numbers| numbers.header_iv_length = 0x10C), 19);
}

#[test]
fn the_suite_of_a_record() {
    let mut out = [0xEE; 64];
    let written = write_header_auth_tag(0x1_0178, &[1; 12], &[2; 16], &mut out);
    assert_eq!(written.unwrap_err().number(), 6);
    assert_eq!(out, [0xEE; 64]);
    let read = read_header_auth_tag(&out, 0, 0x1_0178);
    assert_eq!(read.unwrap_err().number(), 6);
}
