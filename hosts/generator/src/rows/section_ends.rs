//! Parts that end a byte before their section's end, at it and a byte past it,
//! read by every operation that reads a context section.

use super::listings::{self, List};
use super::{Asked, Codec, Refused};
use crate::fields::{back, front};
use crate::headers::{header_h_with, header_v2_with, hex};
use crate::image::{keys, only_authenticated};
use crate::large::plain;
use crate::section_ends::{sections, Ended};
use crate::Key;

/// The sections that document 02 names for 32, but for the longest.
const NAMED: [&str; 4] = [
    "00 01 00",
    "00 01 00 00",
    "00 04 00 01 00 05",
    "00 04 00 01 00 05 61 62 63 64 65 00 00",
];

/// Each of them in a header of each version, whole and cut behind the section.
fn named() -> impl Iterator<Item = (u32, Vec<u8>)> {
    NAMED.into_iter().flat_map(|section| {
        let (first, second) = (header_h_with(section), header_v2_with(section));
        let length = hex(section).len();
        let (first_cut, second_cut) = (
            first[..20 + length].to_vec(),
            second[..35 + length].to_vec(),
        );
        [(1, first), (1, first_cut), (2, second), (2, second_cut)]
    })
}

/// Bytes in front of the section or the body, so that an end is not right by
/// being counted from the message's first byte.
const BEFORE: usize = 3;

/// A message: bytes before, the section, and as much behind it as is told;
/// without anything behind, it ends where the section does.
fn message(ended: &Ended, behind: Option<&[u8]>) -> Vec<u8> {
    let mut message = vec![0xEE; BEFORE];
    message.extend_from_slice(&ended.bytes);
    message.extend_from_slice(behind.unwrap_or(b"z"));
    if behind.is_none() {
        message.truncate(BEFORE + ended.end);
    }
    message
}

/// The refusal, if it is one.
fn refused(number: u32) -> Option<Refused> {
    (number != 0).then_some((number, 0))
}

/// Sections in both modes, finds of each key and of none, and what is only
/// authenticated; with bytes behind the section and without.
pub fn of_sections(codec: &impl Codec) -> u64 {
    let mut compared = 0;
    for (row, ended) in sections().iter().enumerate() {
        for behind in [None, Some(&b"zzzzzzzz"[..])] {
            let message = message(ended, behind);
            let what = format!(
                "row {row}, {} behind",
                behind.map_or("nothing", |_| "bytes")
            );
            compared += section(codec, ended, &message, &what);
            compared += finds(codec, ended, &message, &what);
            compared += only(codec, ended, &message, &what);
        }
    }
    compared
}

fn section(codec: &impl Codec, ended: &Ended, message: &[u8], what: &str) -> u64 {
    for strict in [false, true] {
        let mut table = vec![7; 4 * ended.pairs.len()];
        let answer = codec.read_section(message, BEFORE as u64, strict, &mut table);
        let accepted = (ended.pairs.len() as u32, (BEFORE + ended.end) as u64);
        let wanted = refused(ended.wanted).map_or(Ok(accepted), Err);
        assert_eq!(answer, wanted, "{what}");
        let parts = ended.pairs.iter().flat_map(|pair| [&pair.0, &pair.1]);
        for (place, part) in table.chunks_exact(2).zip(parts) {
            match ended.wanted {
                0 => assert_eq!(message[place[0] as usize..][..place[1] as usize], **part),
                _ => assert_eq!(place, [7, 7], "{what}"),
            }
        }
    }
    2
}

fn finds(codec: &impl Codec, ended: &Ended, message: &[u8], what: &str) -> u64 {
    for (key, value) in &ended.pairs {
        let answer = codec.find(message, BEFORE as u64, key);
        assert_eq!(answer.err(), refused(ended.wanted), "{what}");
        let part = codec.find_part(message, BEFORE as u64, key);
        match ended.wanted {
            0 => assert_eq!(part, value, "{what}"),
            _ => assert!(part.is_empty() && part.as_ptr() == message.as_ptr()),
        }
    }
    let absent = codec.find(message, BEFORE as u64, b"absent");
    let wanted = refused(ended.wanted).unwrap_or((29, 0));
    assert_eq!(absent, Err(wanted), "{what}");
    ended.pairs.len() as u64 + 1
}

/// The first key is required, in an output that just holds its pair.
fn only(codec: &impl Codec, ended: &Ended, message: &[u8], what: &str) -> u64 {
    let key = &ended.pairs[0].0;
    let image = only_authenticated(&ended.pairs, [&key[..]]);
    let mut out = vec![0xEE; image.len()];
    let required = [0, key.len() as u32];
    let answer = codec.write_only_authenticated(message, BEFORE as u64, key, &required, &mut out);
    match refused(ended.wanted) {
        None => assert_eq!((answer, &out), (Ok(image.len() as u64), &image), "{what}"),
        Some(refusal) => {
            assert_eq!(answer, Err(refusal), "{what}");
            assert!(out.iter().all(|&byte| byte == 0xEE), "{what}");
        }
    }
    1
}

/// Bodies of both versions around the sections, by every reader of the version
/// and as a host is told; whole, and cut where the section ends. One that is
/// accepted and cut lacks its key count.
pub fn of_bodies(codec: &impl Codec) -> u64 {
    let mut compared = 0;
    for (row, ended) in sections().iter().enumerate() {
        for version in [1, 2] {
            let fields = plain(version);
            let front = front(&fields).bytes;
            let mut rest = keys(&[Key::default()]);
            rest.image(&back(&fields, [0; 4]));
            for behind in [None, Some(&rest.bytes[..])] {
                let mut message = message(ended, behind);
                let cut = (message.len() + front.len() + 2) as u64;
                message.splice(BEFORE..BEFORE, front.iter().copied());
                let wanted = match (ended.wanted, behind) {
                    (0, None) => Some((2, cut)),
                    (number, _) => refused(number),
                };
                let what = format!("row {row}, version {version}");
                compared += body(codec, version, &message, wanted, &what);
            }
        }
    }
    compared
}

/// The same of the sections that are named, in headers.
pub fn of_headers(codec: &impl Codec) -> u64 {
    let mut compared = 0;
    for (version, header) in named() {
        let mut message = vec![0xEE; BEFORE];
        message.extend_from_slice(&header);
        let what = format!("{header:02X?}");
        compared += body(codec, version, &message, Some((32, 0)), &what);
    }
    compared
}

/// The same as they are listed.
pub fn listed(listing: impl List) -> u64 {
    let mut compared = 0;
    for (_, header) in named() {
        let text = listing(&header);
        assert_eq!(text, listings::refused(32, 0), "{header:02X?}");
        compared += 1;
    }
    compared
}

fn body(
    codec: &impl Codec,
    version: u32,
    message: &[u8],
    wanted: Option<Refused>,
    what: &str,
) -> u64 {
    for (only, strict) in [(0, false), (0, true), (version, false), (version, true)] {
        let asked = Asked {
            start: BEFORE as u64,
            ..Asked::new(only, strict)
        };
        let (mut pairs, mut keys) = ([7; 12], [7; 6]);
        let answer = codec.read_body(message, asked, &mut pairs, &mut keys);
        assert_eq!(answer.err(), wanted, "{what}");
        match answer {
            Ok(body) => assert_eq!(body.tail, message.len() as u64, "{what}"),
            Err(_) => assert_eq!((pairs, keys), ([7; 12], [7; 6]), "{what}"),
        }
    }
    let told = codec.host_answer(message, BEFORE as u64);
    let accepted = (0, message.len() as u64);
    assert_eq!(told, wanted.unwrap_or(accepted), "{what}");
    5
}
