//! Commitment policies: which versions of a body are read and written, and
//! where one that is forbidden is refused. All else is as without a policy.

mod common;

use bafirolen::*;
use common::H;

const REFUSED: Refusal = Refusal::ForbiddenByPolicy;

/// A policy, or none: which of versions 1 and 2 it reads, and which it writes.
type Row = (Option<Policy>, [bool; 2], [bool; 2]);

const POLICIES: [Row; 4] = [
    (None, [true, true], [true, true]),
    (
        Some(Policy::ForbidEncryptAllowDecrypt),
        [true, true],
        [true, false],
    ),
    (
        Some(Policy::RequireEncryptAllowDecrypt),
        [true, true],
        [false, true],
    ),
    (
        Some(Policy::RequireEncryptRequireDecrypt),
        [false, true],
        [false, true],
    ),
];

/// Each policy with each version, and whether the first reads and writes the
/// second.
fn rows() -> impl Iterator<Item = (Option<Policy>, usize, bool, bool)> {
    POLICIES.into_iter().flat_map(|(policy, reads, writes)| {
        [1, 2].map(|version| (policy, version, reads[version - 1], writes[version - 1]))
    })
}

/// H, or a header of version 2 with its pair and key.
fn header(version: usize) -> Vec<u8> {
    match version {
        1 => H.to_vec(),
        _ => [&[2, 0x05, 0x78], &H[..32], &H[20..49], &H[54..], &H[26..58]].concat(),
    }
}

/// The same with an empty context in its old form.
fn old_header(version: usize) -> Vec<u8> {
    let (mut header, context) = (header(version), ends(version).1);
    header.splice(context..context + 14, [0, 2, 0, 0]);
    header
}

/// Where the suite ends, and where the sections begin.
fn ends(version: usize) -> (usize, usize) {
    [(4, 20), (3, 35)][version - 1]
}

/// A reader, in each mode and with a maximum.
fn requests(which: Which) -> [Request; 4] {
    let request = Request::new().only(which);
    let strict = request.strict();
    [request, strict, request.at_most(0), strict.at_most(1)]
}

fn under(request: Request, policy: Option<Policy>) -> Request {
    match policy {
        None => request,
        Some(policy) => request.under(policy),
    }
}

type Tables = ([u32; 8], [u32; 8]);
const KEPT: Tables = ([7; 8], [7; 8]);

/// The answer: numbers, ID, suite data and tail, or the refusal; and the tables
/// afterwards.
fn answer(message: &[u8], start: u64, request: Request) -> (Result<String, Refusal>, Tables) {
    let mut tables = KEPT;
    let read = read_header_body(message, start, request, &mut tables.0, &mut tables.1);
    (read.map(|body| format!("{body:?}")), tables)
}

#[test]
fn what_is_to_be_done() {
    assert_eq!(REFUSED.number(), 39);
    assert_eq!(REFUSED.position(), 0);
    assert_eq!(REFUSED.remedy(), Remedy::Reject);
    let words = "refusal 39: suite forbidden by the policy";
    assert_eq!(REFUSED.to_string(), words);
    assert_eq!(Refusal::from_number(39, 0), REFUSED);
}

/// By every reader: the other version is refused by 4 whatever the policy is, a
/// forbidden one by 39, and the rest is answered as without a policy.
#[test]
fn versions_read() {
    for (policy, version, reads, _) in rows() {
        let (header, old) = (header(version), old_header(version));
        let behind = [b"xyz", &header[..]].concat();
        for which in [Which::Either, Which::V1Only, Which::V2Only] {
            let other = which == [Which::V2Only, Which::V1Only][version - 1];
            for request in requests(which) {
                for (message, start) in [(&header, 0), (&behind, 3), (&old, 0)] {
                    let got = answer(message, start, under(request, policy));
                    if other {
                        assert_eq!(got, (Err(Refusal::OtherVersion), KEPT));
                    } else if !reads {
                        assert_eq!(got, (Err(REFUSED), KEPT));
                    } else {
                        assert_eq!(got, answer(message, start, request));
                        let strict = request.mode == Mode::Strict && *message == old;
                        let refused = strict || request.max == Some(0);
                        assert_eq!(got.0.is_err(), refused, "{policy:?} {request:?}");
                        assert_eq!(got.1 == KEPT, refused);
                    }
                }
            }
        }
    }
}

/// At every cut: as soon as the suite is read, so before any byte of the message
/// ID, and no sooner.
#[test]
fn cuts_read() {
    for (policy, version, reads, _) in rows() {
        let header = header(version);
        for length in 0..=header.len() {
            for request in requests(Which::Either) {
                let got = answer(&header[..length], 0, under(request, policy));
                if length >= ends(version).0 && !reads {
                    assert_eq!(got, (Err(REFUSED), KEPT), "{length}");
                } else {
                    assert_eq!(got, answer(&header[..length], 0, request), "{length}");
                }
            }
        }
    }
}

/// Behind what is refused of version, type and suite, and before what is refused
/// of the sections and behind them.
#[test]
fn faults_read() {
    for (policy, version, reads, _) in rows() {
        let (suite, context) = (ends(version).0 - 2, ends(version).1);
        let refused = |place: usize, bytes: &[u8]| {
            let mut message = header(version);
            message[place..place + bytes.len()].copy_from_slice(bytes);
            let (got, tables) = answer(&message, 0, under(Request::new(), policy));
            assert_eq!(tables, KEPT);
            got.unwrap_err()
        };
        assert_eq!(refused(0, &[3]), Refusal::UnknownVersion);
        assert_eq!(refused(suite, &[0x01, 0x79]), Refusal::UnknownSuite);
        let other = [[0x05, 0x78], [0x01, 0x78]][version - 1];
        assert_eq!(refused(suite, &other), Refusal::SuiteOfOtherVersion);
        if version == 1 {
            assert_eq!(refused(1, &[0x81]), Refusal::MessageType);
        }
        for (place, bytes, number) in [
            (context, [0, 1], 32),
            (context + 2, [0, 0], 9),
            (context + 14, [0, 0], 38),
            (context + 28, [3, 0], 17),
        ] {
            let number = if reads { number } else { 39 };
            assert_eq!(refused(place, &bytes).number(), number);
        }
    }
    let far = answer(H, 1 << 32, under(Request::new(), POLICIES[3].0));
    assert_eq!(far, (Err(Refusal::NotAddressable), KEPT));
}

/// The fields of `header(version)`, and the header as the text.
fn draft(version: usize, header: &[u8]) -> Draft<'_> {
    if version == 1 {
        let numbers = Numbers::version_1(0x0178, FRAMED, 4_096);
        let tables = (&[26, 4, 32, 2], &[38, 2, 42, 1, 45, 3]);
        Draft::new(numbers, &header[4..20]).with_tables(header, tables.0, tables.1)
    } else {
        let numbers = Numbers::version_2(0x0578, FRAMED, 4_096);
        let tables = (&[41, 4, 47, 2], &[53, 2, 57, 1, 60, 3]);
        Draft::new(numbers, &header[3..35])
            .with_suite_data(&header[68..])
            .with_tables(header, tables.0, tables.1)
    }
}

/// What is refused of a draft whatever the output, which the length says before,
/// and the vector of both.
fn refused(draft: &Draft, policy: Option<Policy>) -> Refusal {
    let mut draft = *draft;
    draft.policy = policy;
    let refusal = header_body_len(&draft).unwrap_err();
    for room in [0, 57, 100, 101] {
        let mut out = vec![0xEE; room];
        assert_eq!(write_header_body(&draft, &mut out), Err(refusal));
        assert_eq!(out, vec![0xEE; room]);
    }
    #[cfg(feature = "alloc")]
    assert_eq!(header_body_to_vec(&draft), Err(refusal));
    refusal
}

/// What is written under a policy is what is written without one.
#[test]
fn versions_written() {
    for (policy, version, _, writes) in rows() {
        let header = header(version);
        let mut draft = draft(version, &header);
        assert_eq!(draft.policy, None);
        if !writes {
            assert_eq!(refused(&draft, policy), REFUSED);
            continue;
        }
        if let Some(policy) = policy {
            draft = draft.under(policy);
            assert_eq!(draft.policy, Some(policy));
        }
        assert_eq!(header_body_len(&draft), Ok(header.len()));
        let mut out = vec![0xEE; header.len()];
        let short = write_header_body(&draft, &mut out[1..]);
        assert_eq!(short, Err(Refusal::OutputTooShort));
        assert_eq!(write_header_body(&draft, &mut out), Ok(header.len()));
        assert_eq!(out, header);
        #[cfg(feature = "alloc")]
        assert_eq!(header_body_to_vec(&draft), Ok(header));
    }
}

/// Makes one fault of a draft.
type Fault = fn(&mut Draft);

/// Behind version, type and suite, and before the message ID and all else.
#[test]
fn faults_written() {
    for (policy, version, _, writes) in rows() {
        let header = header(version);
        let sound = draft(version, &header);
        let faulty = |fault: Fault| {
            let mut draft = sound;
            fault(&mut draft);
            refused(&draft, policy).number()
        };
        assert_eq!(faulty(|draft| draft.numbers.version += 2), 3);
        assert_eq!(faulty(|draft| draft.numbers.message_type += 1), 5);
        assert_eq!(faulty(|draft| draft.numbers.suite += 1), 6);
        assert_eq!(faulty(|draft| draft.numbers.suite ^= 0x0400), 7);
        let behind: [(Fault, u32); 6] = [
            (|draft| draft.message_id = &draft.message_id[1..], 24),
            (|draft| draft.pairs = &draft.pairs[1..], 26),
            (|draft| draft.numbers.form = Form::Old, 33),
            (|draft| draft.keys = &[], 38),
            (|draft| draft.suite_data = &[0], 25),
            (|draft| draft.numbers.frame_length = 0, 20),
        ];
        for (fault, number) in behind {
            assert_eq!(faulty(fault), if writes { number } else { 39 });
        }
    }
}

/// A body is written again under no policy, unless its draft is given one.
#[test]
fn drafts_of_what_was_read() {
    let policy = Policy::RequireEncryptAllowDecrypt;
    let (mut pairs, mut keys) = ([0; 4], [0; 6]);
    let request = Request::new().under(policy);
    let body = read_header_body(H, 0, request, &mut pairs, &mut keys).unwrap();
    let mut out = [0; 58];
    assert_eq!(write_header_body(&body.draft(), &mut out), Ok(58));
    assert_eq!(out, *H);
    assert_eq!(refused(&body.draft(), Some(policy)), REFUSED);
}
