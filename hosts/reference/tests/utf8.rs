//! UTF-8 against std, exhaustively for short strings.

mod common;

use common::report;
use generator::random::Random;
use generator::texts::{bad_sequence, bad_text, character, text, BAD_KINDS, KINDS};
use reference::is_utf8;
use std::str::from_utf8;

fn agree(bytes: &[u8]) {
    assert_eq!(is_utf8(bytes), from_utf8(bytes).is_ok(), "{bytes:02x?}");
}

#[test]
fn every_string_of_up_to_three_bytes() {
    let mut compared = 1;
    agree(&[]);
    for a in 0..=255 {
        agree(&[a]);
        for b in 0..=255 {
            agree(&[a, b]);
            for c in 0..=255 {
                agree(&[a, b, c]);
            }
            compared += 257;
        }
        compared += 1;
    }
    report("strings of up to 3 bytes", compared);
}

/// Each byte at which some range of the grammar begins or ends, and its
/// neighbours.
const BOUNDARIES: [u8; 26] = [
    0x00, 0x01, 0x41, 0x7E, 0x7F, 0x80, 0x81, 0x8E, 0x8F, 0x90, 0x91, 0x9E, 0x9F, 0xA0, 0xA1, 0xBE,
    0xBF, 0xC0, 0xC1, 0xC2, 0xDF, 0xE0, 0xED, 0xF0, 0xF4, 0xFF,
];

#[test]
fn four_bytes_at_the_boundaries() {
    let mut compared = 0;
    for a in (0..=255u8).filter(|a| (0xF0..=0xF5).contains(a) || BOUNDARIES.contains(a)) {
        for b in BOUNDARIES {
            for c in BOUNDARIES {
                for d in BOUNDARIES {
                    agree(&[a, b, c, d]);
                    compared += 1;
                }
            }
        }
    }
    // Second bytes in full where they are narrowed.
    for a in 0xF0..=0xF5 {
        for b in 0..=255 {
            for c in 0..=255 {
                agree(&[a, b, c, 0x80]);
                agree(&[a, b, 0x80, c]);
                compared += 2;
            }
        }
    }
    report("strings of 4 bytes", compared);
}

#[test]
fn every_character() {
    let mut compared = 0;
    for point in 0..=0x1F_FFFF {
        let bytes = generator::texts::encode(point);
        assert_eq!(
            is_utf8(&bytes),
            char::from_u32(point).is_some(),
            "{point:x}"
        );
        compared += 1;
    }
    report("code points", compared);
}

#[test]
fn generated_texts() {
    let mut random = Random::new(8);
    let mut compared = 0;
    for _ in 0..100_000 {
        let good = text(&mut random, 60);
        assert!(is_utf8(&good) && from_utf8(&good).is_ok(), "{good:02x?}");
        let bad = bad_text(&mut random);
        assert!(!is_utf8(&bad) && from_utf8(&bad).is_err(), "{bad:02x?}");
        let length = random.index(24);
        let mut noise = random.bytes(length);
        agree(&noise);
        noise.iter_mut().for_each(|byte| *byte &= 0xBF);
        agree(&noise);
        compared += 4;
    }
    for kind in 0..KINDS.len() {
        // Each kind at every distance from the step of eight bytes.
        for before in 0..20 {
            let mut bytes = vec![b'a'; before];
            bytes.extend(character(&mut random, kind));
            bytes.extend(b"0123456789");
            assert!(is_utf8(&bytes));
            compared += 1;
        }
    }
    for kind in BAD_KINDS {
        for before in 0..20 {
            for behind in [0, 1, 9] {
                let mut bytes = vec![b'a'; before];
                bytes.extend(bad_sequence(&mut random, kind));
                bytes.extend(vec![b'z'; behind]);
                assert!(!is_utf8(&bytes), "{kind:?} {bytes:02x?}");
                compared += 1;
            }
        }
    }
    report("generated texts", compared);
}
