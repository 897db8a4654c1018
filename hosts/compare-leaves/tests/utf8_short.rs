//! UTF-8, exhaustively for short strings: three opinions have to agree.

use compare_leaves::report::compared;

#[inline]
fn agree(bytes: &[u8]) {
    let ours = leaves::is_utf8(bytes, (0, bytes.len() as u64));
    let theirs = reference::is_utf8(bytes);
    let std = std::str::from_utf8(bytes).is_ok();
    assert!(
        ours == Some(theirs) && theirs == std,
        "{bytes:02x?}: ours {ours:?}, reference {theirs}, std {std}"
    );
}

#[test]
fn every_string_of_up_to_three_bytes() {
    agree(&[]);
    let mut count = 1;
    for a in 0..=255 {
        agree(&[a]);
        count += 1;
        for b in 0..=255 {
            agree(&[a, b]);
            count += 1;
            for c in 0..=255 {
                agree(&[a, b, c]);
                count += 1;
            }
        }
    }
    assert_eq!(count, 1 + 256 + 65_536 + 16_777_216);
    compared(count, "strings of up to 3 bytes");
}

/// Each byte at which some range of the grammar begins or ends, and its
/// neighbours.
const BOUNDARIES: [u8; 28] = [
    0x00, 0x01, 0x41, 0x7E, 0x7F, 0x80, 0x81, 0x8E, 0x8F, 0x90, 0x91, 0x9E, 0x9F, 0xA0, 0xA1, 0xBE,
    0xBF, 0xC0, 0xC1, 0xC2, 0xDF, 0xE0, 0xED, 0xEF, 0xF0, 0xF4, 0xF5, 0xFF,
];

/// All of them where the first byte begins four, or is just above those.
#[test]
fn every_string_of_four_bytes_from_f0_to_f5() {
    let mut count = 0;
    for first in 0xF0..=0xF5 {
        for rest in 0..1u32 << 24 {
            let [_, b, c, d] = rest.to_be_bytes();
            agree(&[first, b, c, d]);
            count += 1;
        }
    }
    compared(count, "strings of 4 bytes with a first byte F0 to F5");
}

/// Two and three characters one behind the other, and what stands between
/// them.
#[test]
fn five_bytes_at_the_boundaries() {
    let mut count = 0;
    for a in BOUNDARIES {
        for b in BOUNDARIES {
            for c in BOUNDARIES {
                for d in BOUNDARIES {
                    agree(&[a, b, c, d]);
                    count += 1;
                    for e in [0x41, 0x80, 0xBF, 0xC2, 0xF4] {
                        agree(&[a, b, c, d, e]);
                        count += 1;
                    }
                }
            }
        }
    }
    compared(count, "strings of 4 and 5 boundary bytes");
}

#[test]
fn every_code_point() {
    let mut count = 0;
    for point in 0..=0x1F_FFFF {
        let bytes = generator::texts::encode(point);
        let ours = leaves::is_utf8(&bytes, (0, bytes.len() as u64));
        assert_eq!(ours, Some(char::from_u32(point).is_some()), "{point:x}");
        count += 1;
    }
    compared(count, "code points");
}
