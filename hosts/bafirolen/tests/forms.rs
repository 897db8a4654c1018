//! The form of a body: the mark that a reader gives, which the writer follows.

mod common;

use bafirolen::*;
use common::H;

/// H with another context section.
fn with(section: &[u8]) -> Vec<u8> {
    [&H[..20], section, &H[34..]].concat()
}

const TODAY: &[u8] = &[0, 0];
const OLD: &[u8] = &[0, 2, 0, 0];

/// The draft of what was read lives on when the body is gone; it borrows the
/// message and the tables.
fn draft<'a>(message: &'a [u8], pairs: &'a mut [u32], keys: &'a mut [u32]) -> Draft<'a> {
    let body = read_header_body(message, 0, Request::default(), pairs, keys).unwrap();
    body.draft()
}

#[test]
fn of_what_is_read() {
    let (mut pairs, mut keys) = ([0; 4], [0; 6]);
    let mut form = |message: &[u8], request: Request| {
        let body = read_header_body(message, 0, request, &mut pairs, &mut keys);
        body.map(|body| body.numbers.form)
    };
    for request in [Request::new(), Request::new().only(Which::V1Only)] {
        assert_eq!(form(H, request), Ok(Form::Today));
        assert_eq!(form(&with(TODAY), request), Ok(Form::Today));
        assert_eq!(form(&with(OLD), request), Ok(Form::Old));
        let strict = request.strict();
        assert_eq!(form(&with(TODAY), strict), Ok(Form::Today));
        let refused = form(&with(OLD), strict);
        assert_eq!(refused, Err(Refusal::OldEmptyContext));
    }
}

/// Also where more follows, and with tables that are longer than need be.
#[test]
fn written_again() {
    for (section, length) in [(&H[20..34], 58), (TODAY, 46), (OLD, 48)] {
        let header = with(section);
        let message = [&header[..], b"content"].concat();
        let (mut pairs, mut keys) = ([7; 9], [7; 13]);
        let draft = draft(&message, &mut pairs, &mut keys);
        let mut out = [0xEE; 64];
        assert_eq!(write_header_body(&draft, &mut out), Ok(length));
        assert_eq!(out[..length], header);
        assert!(out[length..].iter().all(|byte| *byte == 0xEE));
        let mut short = vec![0xEE; length - 1];
        let refused = write_header_body(&draft, &mut short);
        assert_eq!(refused, Err(Refusal::OutputTooShort));
        assert!(short.iter().all(|byte| *byte == 0xEE));
    }
}

/// What was read in one form is written in the other where it is marked so.
#[test]
fn marked_by_the_caller() {
    assert_eq!(Form::default(), Form::Today);
    for (section, form, other) in [(TODAY, Form::Old, OLD), (OLD, Form::Today, TODAY)] {
        let message = with(section);
        let (mut pairs, mut keys) = ([0; 4], [0; 6]);
        let mut draft = draft(&message, &mut pairs, &mut keys);
        draft.numbers = draft.numbers.with_form(form);
        assert_eq!(draft.numbers.form, form);
        let mut out = [0; 48];
        let length = write_header_body(&draft, &mut out).unwrap();
        assert_eq!(out[..length], with(other));
    }
}

/// After what is refused of the pairs, and before what is refused of the keys.
#[test]
fn a_pair_in_the_old_form() {
    let (mut pairs, mut keys) = ([0; 4], [0; 6]);
    let mut draft = draft(H, &mut pairs, &mut keys);
    draft.numbers.form = Form::Old;
    let answer = |draft: Draft| {
        let mut out = [0xEE; 64];
        let refused = write_header_body(&draft, &mut out).unwrap_err();
        assert_eq!(out, [0xEE; 64]);
        refused
    };
    assert_eq!(answer(draft), Refusal::PairInOldForm);
    assert_eq!(answer(draft).number(), 33);
    let pairs = |pairs| draft.with_tables(H, pairs, draft.keys);
    // A pair of empty parts is a pair.
    assert_eq!(answer(pairs(&[0; 4])), Refusal::PairInOldForm);
    assert_eq!(answer(pairs(&[26, 4, 32])), Refusal::TableOrPlace);
    assert_eq!(answer(pairs(&[26, 4, 57, 2])), Refusal::TableOrPlace);
    assert_eq!(answer(pairs(&[45, 3, 32, 2])), Refusal::KeyNotUtf8);
    assert_eq!(answer(pairs(&[26, 4, 45, 3])), Refusal::ValueNotUtf8);
    let again = pairs(&[26, 4, 32, 2, 26, 4, 32, 2]);
    assert_eq!(answer(again), Refusal::KeySeenBefore);
    for keys in [
        &[][..],
        &[38, 2, 42],
        &[38, 2, 42, 1, 57, 2],
        &[45, 3, 42, 1, 45, 3],
    ] {
        let keys = draft.with_tables(H, draft.pairs, keys);
        assert_eq!(answer(keys), Refusal::PairInOldForm);
        let none = draft.with_tables(H, &[], keys.keys);
        assert_ne!(answer(none), Refusal::PairInOldForm);
    }
}
