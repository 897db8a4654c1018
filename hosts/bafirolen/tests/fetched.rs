//! What `fetch` fetches: just what an operation reads, in as many rounds as it
//! wants fields, and of what is refused no byte that the refusal does not need.
//! `fetching.rs` has the loop itself.

mod common;

use bafirolen::*;
use common::{header_of, Source, H};

/// Context sections, and in how many rounds they come: the length, and all else
/// at once.
const CONTEXTS: [(&[u8], u64); 4] = [
    (b"\x00\x00", 1),
    (b"\x00\x02\x00\x00", 2),
    (b"\x00\x0C\x00\x01\x00\x04lang\x00\x02cy", 2),
    (
        b"\x00\x1B\x00\x03\x00\x04tone\x00\x01b\x00\x04lang\x00\x02cy\x00\x02la\x00\x00",
        2,
    ),
];

/// Key sections, how many keys they have, and the rounds behind their count: an
/// empty part takes one for its length alone.
const KEYS: [(&[u8], u64, u64); 4] = [
    (b"\x00\x01\x00\x02p1\x00\x01a\x00\x03\xAA\xBB\xCC", 1, 6),
    (b"\x00\x01\x00\x00\x00\x00\x00\x00", 1, 3),
    (
        b"\x00\x02\x00\x01p\x00\x01a\x00\x01c\x00\x01q\x00\x01b\x00\x01d",
        2,
        12,
    ),
    (
        b"\x00\x03\x00\x01p\x00\x00\x00\x02cd\x00\x00\x00\x00\x00\x00\x00\x01q\x00\x01b\x00\x01d",
        3,
        5 + 3 + 6,
    ),
];

/// Each header, how many keys it has, and in how many rounds it comes.
fn headers() -> Vec<(Vec<u8>, u64, u64)> {
    let mut headers = Vec::new();
    for version in [1, 2] {
        // Around the sections: version, type, suite and ID, content type,
        // reserved bytes, IV length and frame length; or version, suite and ID,
        // content type, frame length and suite data.
        let around = if version == 1 { 8 } else { 6 };
        for (context, context_rounds) in CONTEXTS {
            for (keys, count, key_rounds) in KEYS {
                let rounds = around + context_rounds + 1 + key_rounds;
                headers.push((header_of(version, context, keys), count, rounds));
            }
        }
    }
    headers
}

/// What is read of a body at a start, all of it as text.
fn read(message: &[u8], start: u64) -> Result<String, Refusal> {
    let (mut pairs, mut keys) = ([0; 12], [0; 18]);
    let body = read_header_body(message, start, Request::new(), &mut pairs, &mut keys)?;
    Ok(format!("{body:?}"))
}

/// Fetches from the first `held` bytes on, in pieces; gives how it ended, and up
/// to where it asked.
fn fetched(
    message: &[u8],
    held: usize,
    pieces: &[usize],
    ask: impl Fn(&[u8]) -> Result<(), Refusal>,
) -> (Fetched, usize) {
    let mut source = Source::new(message, held, pieces);
    let mut buffer = vec![0; 400];
    buffer[..held].copy_from_slice(&message[..held]);
    let fetched = fetch(&mut buffer, held, &ask, |room| source.more(room)).unwrap();
    assert_eq!(fetched.held, source.given);
    assert_eq!(buffer[..fetched.held], message[..fetched.held]);
    // What is answered to the bytes held, also where they end too early.
    assert_eq!(ask(&buffer[..fetched.held]), fetched.answer);
    (fetched, source.asked)
}

/// At the message's front and behind other bytes, from any number of bytes held,
/// with more behind it: the tail is the last byte that is asked for.
#[test]
fn headers_and_nothing_behind_them() {
    for (header, keys, rounds) in headers() {
        for start in [0, 3] {
            let message = [&b"xyz"[..start], &header, &[0xEE; 40]].concat();
            let tail = start + header.len();
            let ask = |message: &[u8]| read(message, start as u64).map(|_| ());
            for held in 0..=message.len() {
                for pieces in [&[400][..], &[1], &[3, 1, 7]] {
                    let (fetched, asked) = fetched(&message, held, pieces, ask);
                    let wanted = (tail.max(held), tail.max(held), Ok(()));
                    assert_eq!((fetched.held, asked, fetched.answer), wanted);
                    assert!(fetched.rounds <= most_rounds(keys));
                    assert!(held > 0 || fetched.rounds == rounds);
                }
            }
            let alone = read(&message[..tail], start as u64);
            assert_eq!(alone, read(&message, start as u64));
        }
    }
}

/// A header of version 1 with a pair and no empty part of a key takes the most
/// rounds, one of version 2 two fewer, and pairs take none.
#[test]
fn the_most_rounds_are_reached() {
    for count in [1, 2, 3, 10, 300_u16] {
        let mut keys = count.to_be_bytes().to_vec();
        for _ in 0..count {
            keys.extend(b"\x00\x01p\x00\x01a\x00\x01c");
        }
        for (version, fewer) in [(1, 0), (2, 2)] {
            for (context, _) in &CONTEXTS[2..] {
                let header = header_of(version, context, &keys);
                let (mut pairs, mut table) = ([0; 12], vec![0; 6 * count as usize]);
                let mut buffer = vec![0; header.len() + 9];
                let mut source = Source::new(&header, 0, &[usize::MAX]);
                let read = |message: &[u8]| {
                    let request = Request::new();
                    read_header_body(message, 0, request, &mut pairs, &mut table).map(|_| ())
                };
                let fetched = fetch(&mut buffer, 0, read, |room| source.more(room)).unwrap();
                assert_eq!((fetched.held, fetched.answer), (header.len(), Ok(())));
                assert_eq!(fetched.rounds, most_rounds(count.into()) - fewer);
            }
        }
    }
}

/// Every byte of a header replaced: where it is then refused, with a byte less it
/// is not, and no byte behind that was asked for. Where a length now claims more
/// than there is, that is asked for, and the message is as short as it says.
#[test]
fn damaged_headers() {
    let mut refused = 0;
    for (header, _, _) in headers() {
        for place in 0..header.len() {
            for byte in [0x00, 0x01, 0x02, 0x0D, 0x7F, 0x80, 0xFF] {
                let mut message = [&header[..], &[0xEE; 40]].concat();
                message[place] = byte;
                let ask = |message: &[u8]| read(message, 0).map(|_| ());
                let (fetched, asked) = fetched(&message, 0, &[5, 1], ask);
                assert!(fetched.rounds <= most_rounds(65_535));
                if let Err(Refusal::Shortage { position }) = fetched.answer {
                    assert!(position > fetched.held as u64);
                    assert!(asked == fetched.held || asked as u64 == position);
                    continue;
                }
                assert_eq!(ask(&message), fetched.answer);
                assert_eq!(asked, fetched.held);
                let position = fetched.held as u64;
                let less = ask(&message[..fetched.held - 1]);
                assert_eq!(less, Err(Refusal::Shortage { position }));
                refused += u32::from(fetched.answer.is_err());
            }
        }
    }
    assert!(refused > 1_000);
}

/// A frame of 3 bytes, and the final one of 2.
const FRAMES: &[u8; 77] = b"\x00\x00\x00\x01--- IV 1 ---abc----- tag 1 ----\
    \xFF\xFF\xFF\xFF\x00\x00\x00\x02--- IV 2 ---\x00\x00\x00\x02de----- tag 2 ----";

/// An operation on a message, where the fields that it wants end, and what it
/// answers then.
fn row(
    message: &[u8],
    ask: impl Fn(&[u8]) -> Result<(), Refusal>,
    ends: &[usize],
    answer: Result<(), Refusal>,
) {
    let last = ends[ends.len() - 1];
    for held in 0..=message.len() {
        let (fetched, asked) = fetched(message, held, &[2, 9], &ask);
        assert_eq!((fetched.held, fetched.answer), (last.max(held), answer));
        assert_eq!(asked, last.max(held));
        let rounds = ends.iter().filter(|end| **end > held).count();
        assert_eq!(fetched.rounds, rounds as u64);
    }
    for (end, less) in ends.iter().zip([&[0], ends].concat()) {
        for held in less..*end {
            let position = *end as u64;
            assert_eq!(ask(&message[..held]), Err(Refusal::Shortage { position }));
        }
    }
}

#[test]
fn sections_records_and_values() {
    let message = [&H[..], &[0xEE; 40]].concat();
    let context =
        |message: &[u8]| read_aad_section(message, 20, Mode::Strict, &mut [0; 4]).map(|_| ());
    row(&message, context, &[22, 34], Ok(()));
    let old = header_of(1, CONTEXTS[1].0, KEYS[0].0);
    row(&old, context, &[22, 24], Err(Refusal::OldEmptyContext));
    let empty = header_of(1, CONTEXTS[0].0, KEYS[0].0);
    row(&empty, context, &[22], Ok(()));
    let keys = |message: &[u8]| {
        read_encrypted_data_keys_section(message, 34, None, &mut [0; 6]).map(|_| ())
    };
    row(&message, keys, &[36, 38, 40, 42, 43, 45, 48], Ok(()));
    let few = |message: &[u8]| {
        read_encrypted_data_keys_section(message, 34, Some(0), &mut []).map(|_| ())
    };
    row(&message, few, &[36], Err(Refusal::TooManyKeys));
    let find = |key: &'static [u8]| move |message: &[u8]| find_value(message, 20, key).map(|_| ());
    row(&message, find(b"lang"), &[22, 34], Ok(()));
    row(&message, find(b"lan"), &[22, 34], Err(Refusal::NotFound));
    let only =
        |message: &[u8]| write_only_authenticated(message, 20, b"", &[], &mut []).map(|_| ());
    row(&message, only, &[22, 34], Ok(()));
    let record = |suite| move |message: &[u8]| read_header_auth_tag(message, 58, suite).map(|_| ());
    row(&message, record(0x0178), &[70, 86], Ok(()));
    row(&message, record(0x0578), &[74], Ok(()));
    let request = Request::new().under(Policy::RequireEncryptRequireDecrypt);
    let forbidden =
        |message: &[u8]| read_header_body(message, 0, request, &mut [], &mut []).map(|_| ());
    row(
        &message,
        forbidden,
        &[1, 2, 4],
        Err(Refusal::ForbiddenByPolicy),
    );
}

#[test]
fn frames() {
    let ends = [4, 16, 19, 35, 39, 43, 55, 59, 61, 77];
    assert_eq!(most_frame_rounds(2), ends.len() as u64);
    let ask = |message: &[u8]| read_frames(message, 0, 3, &mut [0; 12]).map(|_| ());
    row(&[&FRAMES[..], &[0xEE; 9]].concat(), ask, &ends, Ok(()));
    let (mut again, mut longer) = (*FRAMES, *FRAMES);
    again[42] = 1;
    row(&again, ask, &ends[..6], Err(Refusal::SequenceNumber));
    longer[58] = 4;
    row(&longer, ask, &ends[..8], Err(Refusal::FinalContentTooLong));
}

/// A header, its record and its frames one after the other, each from what is
/// held of the message so far.
#[test]
fn a_message_part_by_part() {
    let mut header = H.to_vec();
    header[54..].copy_from_slice(&[0, 0, 0, 3]);
    let message = [&header[..], &[0x55; 28], FRAMES, b"footer"].concat();
    let mut source = Source::new(&message, 0, &[4, 1, 30]);
    let (mut buffer, mut pairs, mut keys) = ([0; 400], [0; 4], [0; 12]);
    let mut held = 0;
    for (part, (tail, rounds)) in [(58, 17), (86, 2), (163, 10)].into_iter().enumerate() {
        let ask = |message: &[u8]| match part {
            0 => read_header_body(message, 0, Request::new(), &mut pairs, &mut keys).map(|_| ()),
            1 => read_header_auth_tag(message, 58, 0x0178).map(|_| ()),
            _ => read_frames(message, 86, 3, &mut keys).map(|_| ()),
        };
        let fetched = fetch(&mut buffer, held, ask, |room| source.more(room)).unwrap();
        assert_eq!((fetched.held, fetched.rounds), (tail, rounds));
        assert_eq!(fetched.answer, Ok(()));
        held = fetched.held;
    }
    assert_eq!(message[source.given..], *b"footer");
}
