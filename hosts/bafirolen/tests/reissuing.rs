//! Drafts of version 1 written in version 2: what the output holds then, byte by
//! byte, and what is read of it.

mod common;

use bafirolen::*;
use common::{header_of, key_section, HandedOn, H};

const ID: [u8; 32] = *b"abcdefghijklmnopqrstuvwxyz012345";
const DATA: [u8; 32] = *b"ABCDEFGHIJKLMNOPQRSTUVWXYZ678901";

const ADDED: Reissue = Reissue {
    suite: 0x0578,
    message_id: &ID,
    suite_data: &DATA,
};

/// H's own sections and back.
const OF_H: HandedOn = HandedOn {
    context: H.split_at(20).1.split_at(14).0,
    keys: H.split_at(34).1.split_at(14).0,
    content_type: 2,
    frame_length: 4_096,
};

/// An empty context in both forms; a pair; one with empty parts; and three, in an
/// order that no sorting leaves, of which one has more than ASCII.
const CONTEXTS: [&[u8]; 5] = [
    &[0, 0],
    &[0, 2, 0, 0],
    OF_H.context,
    b"\x00\x06\x00\x01\x00\x00\x00\x00",
    b"\x00\x16\x00\x03\x00\x02\xC3\xA9\x00\x01b\x00\x01b\x00\x00\x00\x02ab\x00\x02\xC3\xA9",
];

/// Content in one piece, and in frames.
const ENDS: [(u8, u32); 4] = [(1, 0), (2, 1), (2, 4_096), (2, u32::MAX)];

/// A key with empty parts; several, the same one twice.
fn key_lists() -> [Vec<u8>; 3] {
    let key = |provider_id, provider_info, ciphertext| Key {
        provider_id,
        provider_info,
        ciphertext,
    };
    let empty = key(b"", b"", b"");
    let (one, other) = (key(b"p1", b"\0\x01", b"\xFF"), key(b"p", b"a", b""));
    [
        key_section(&[empty]),
        key_section(&[one]),
        key_section(&[other, one, empty, other]),
    ]
}

/// Every draft of these parts, and every suite that commits.
fn each(test: impl Fn(&HandedOn, &Reissue)) {
    for keys in &key_lists() {
        for context in CONTEXTS {
            for (content_type, frame_length) in ENDS {
                let handed_on = HandedOn {
                    context,
                    keys,
                    content_type,
                    frame_length,
                };
                for suite in [0x0478, 0x0578] {
                    test(&handed_on, &Reissue { suite, ..ADDED });
                }
            }
        }
    }
}

/// Into outputs that are too short, of just the length, and longer: what is not
/// written is left.
fn becomes(message: &[u8], start: u64, reissue: &Reissue, wanted: &[u8]) {
    let length = wanted.len();
    let told = reissued_header_body_len(message, start, reissue);
    assert_eq!(told, Ok(length));
    for room in [0, length - 1, length, length + 1, length + 40] {
        let mut out = vec![0xEE; room];
        let answer = reissue_header_body(message, start, reissue, &mut out);
        if room < length {
            assert_eq!(answer, Err(Refusal::OutputTooShort));
            assert_eq!(out, vec![0xEE; room]);
        } else {
            assert_eq!(answer, Ok(length));
            assert_eq!(out[..length], *wanted);
            assert_eq!(out[length..], vec![0xEE; room - length]);
        }
    }
}

/// H, and every byte of what it becomes.
#[test]
fn header_h() {
    let wanted = b"\x02\x05\x78abcdefghijklmnopqrstuvwxyz012345\
        \x00\x0C\x00\x01\x00\x04lang\x00\x02cy\
        \x00\x01\x00\x02p1\x00\x01a\x00\x03\xAA\xBB\xCC\
        \x02\x00\x00\x10\x00ABCDEFGHIJKLMNOPQRSTUVWXYZ678901";
    assert_eq!(wanted.len(), 100);
    becomes(H, 0, &ADDED, wanted);
}

/// An empty context takes 2 bytes, in whichever form the draft has it: 88 bytes
/// by hand, of which 46 or 48 came from the draft.
#[test]
fn both_forms() {
    let wanted = b"\x02\x04\x78abcdefghijklmnopqrstuvwxyz012345\x00\x00\
        \x00\x01\x00\x02p1\x00\x01a\x00\x03\xAA\xBB\xCC\
        \x02\x00\x00\x10\x00ABCDEFGHIJKLMNOPQRSTUVWXYZ678901";
    assert_eq!(wanted.len(), 88);
    let reissue = Reissue {
        suite: 0x0478,
        ..ADDED
    };
    for (context, length) in [(&[0, 0][..], 46), (&[0, 2, 0, 0], 48)] {
        let draft = header_of(1, context, OF_H.keys);
        assert_eq!(draft.len(), length);
        becomes(&draft, 0, &reissue, wanted);
    }
}

/// As long as is said: 42 bytes more, or 40 for the old form.
#[test]
fn drafts() {
    each(|handed_on, reissue| {
        let (draft, wanted) = (handed_on.draft(), handed_on.reissued(reissue));
        let more = if handed_on.context == CONTEXTS[1] {
            40
        } else {
            42
        };
        assert_eq!(wanted.len(), draft.len() + more);
        becomes(&draft, 0, reissue, &wanted);
    });
}

/// From any start, and whatever stands behind: an authentication record, another
/// header, bytes that are none.
#[test]
fn wherever_it_stands() {
    let front = [0xAB; 40];
    for behind in [&[][..], &[0; 28], &H[..], &[0xFF; 90]] {
        for start in [0, 1, 2, 39, 40] {
            for context in CONTEXTS {
                let handed_on = HandedOn { context, ..OF_H };
                let message = [&front[..start], &handed_on.draft(), behind].concat();
                let wanted = handed_on.reissued(&ADDED);
                becomes(&message, start as u64, &ADDED, &wanted);
            }
        }
    }
}

/// What every reader that takes version 2 gives of it: the draft's pairs, keys,
/// content type and frame length, what was added, and today's form.
#[test]
fn read_back() {
    each(|handed_on, reissue| {
        let (draft, wanted) = (handed_on.draft(), handed_on.reissued(reissue));
        let mut out = vec![0; wanted.len()];
        reissue_header_body(&draft, 0, reissue, &mut out).unwrap();
        let (mut pairs, mut keys) = ([0; 40], [0; 60]);
        let request = Request::default();
        let first = read_header_body(&draft, 0, request, &mut pairs, &mut keys).unwrap();
        for request in [request, request.strict(), request.only(Which::V2Only)] {
            let (mut pairs, mut keys) = ([0; 40], [0; 60]);
            let body = read_header_body(&out, 0, request, &mut pairs, &mut keys).unwrap();
            let (content, length) = (handed_on.content_type, handed_on.frame_length);
            let numbers = Numbers::version_2(reissue.suite, content.into(), length);
            assert_eq!(body.numbers, numbers);
            assert_eq!((body.message_id(), body.suite_data()), (&ID[..], &DATA[..]));
            assert!(body.pairs().eq(first.pairs()));
            assert!(body.keys().eq(first.keys()));
            assert_eq!(body.tail, wanted.len() as u64);
        }
    });
}

/// The same parts lent more than once, since they are only read: message ID and
/// suite data are bytes of the draft.
#[test]
fn parts_that_overlap() {
    let reissue = Reissue {
        suite: 0x0478,
        message_id: &H[..32],
        suite_data: &H[26..],
    };
    becomes(H, 0, &reissue, &OF_H.reissued(&reissue));
}

/// As many bytes of pairs as a context can have, as many keys as a body can
/// have, and parts as long as they can be.
#[test]
fn the_longest() {
    let text = [b'a'; 65_535];
    let pairs = [b"\xFF\xFF\0\x01\0\x01k\xFF\xF8", &text[..65_528]].concat();
    assert_eq!(pairs.len(), 2 + 65_535);
    let long = Key {
        provider_id: &text,
        provider_info: &text,
        ciphertext: &text,
    };
    let empty = Key {
        provider_id: b"",
        provider_info: b"",
        ciphertext: b"",
    };
    let most = key_section(&vec![empty; 65_535]);
    for context in [&pairs[..], &[0, 2, 0, 0]] {
        for keys in [&most, &key_section(&[long, empty, long])] {
            let handed_on = HandedOn {
                context,
                keys,
                ..OF_H
            };
            let wanted = handed_on.reissued(&ADDED);
            becomes(&handed_on.draft(), 0, &ADDED, &wanted);
        }
    }
}

/// What is written, and nothing behind it; and no vector where it is refused.
#[cfg(feature = "alloc")]
#[test]
fn to_a_vector() {
    each(|handed_on, reissue| {
        let message = [&[9; 3], &handed_on.draft()[..], &[9; 28]].concat();
        let vector = reissued_header_body_to_vec(&message, 3, reissue).unwrap();
        assert_eq!(vector, handed_on.reissued(reissue));
        assert_eq!(vector.capacity(), vector.len());
        let refused = reissued_header_body_to_vec(&vector, 0, reissue);
        assert_eq!(refused, Err(Refusal::OtherVersion));
    });
    let position = 58;
    let cut = reissued_header_body_to_vec(&H[..57], 0, &ADDED);
    assert_eq!(cut, Err(Refusal::Shortage { position }));
}
