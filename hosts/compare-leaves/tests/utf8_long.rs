//! UTF-8 of longer texts. Ours passes bytes below 128 in blocks of 16 and 64,
//! so a damaged byte stands at each offset of a block and across its ends.

use compare_leaves::report::compared;
use generator::random::Random;
use generator::texts::{bad_sequence, bad_text, character, text_of, BAD_KINDS, KINDS};

/// The part alone counts, whatever stands around it. Answers whether it is
/// UTF-8.
fn agree(message: &[u8], start: usize, len: usize) -> bool {
    let part = &message[start..start + len];
    let ours = leaves::is_utf8(message, (start as u64, len as u64));
    let theirs = reference::is_utf8(part);
    let std = std::str::from_utf8(part).is_ok();
    assert!(
        ours == Some(theirs) && theirs == std,
        "{part:02x?} at {start}: ours {ours:?}, reference {theirs}, std {std}"
    );
    std
}

/// A text of `len` bytes, all of one kind of character where they fit.
fn text_of_kind(random: &mut Random, kind: usize, len: usize) -> Vec<u8> {
    let mut bytes = Vec::new();
    while bytes.len() < len {
        let next = character(random, kind);
        if bytes.len() + next.len() > len {
            bytes.resize(len, b'.');
        } else {
            bytes.extend(next);
        }
    }
    bytes
}

/// Bytes that begin, go on with or end every range of the grammar.
const DAMAGE: [u8; 14] = [
    0x00, 0x7F, 0x80, 0x8F, 0x9F, 0xBF, 0xC0, 0xC2, 0xE0, 0xED, 0xF0, 0xF4, 0xF5, 0xFF,
];

#[test]
fn one_damaged_byte_at_each_offset() {
    let mut random = Random::new(21);
    let (mut count, mut good) = (0, 0);
    for len in 0..=150 {
        for kind in 0..KINDS.len() {
            let before = random.index(18);
            let mut message = vec![0xFF; before];
            message.extend(text_of_kind(&mut random, kind, len));
            message.extend([0x80; 8]);
            agree(&message, before, len);
            count += 1;
            for offset in before..before + len {
                let kept = message[offset];
                for damage in DAMAGE {
                    message[offset] = damage;
                    good += u64::from(agree(&message, before, len));
                    count += 1;
                }
                message[offset] = kept;
            }
        }
    }
    assert!(good > count / 100 && good < count);
    compared(count, "texts with one damaged byte");
}

/// Each sequence that isn't UTF-8, and each kind of character, cut or whole,
/// at each distance from the blocks' ends.
#[test]
fn every_sequence_at_each_offset_of_a_block() {
    let mut random = Random::new(22);
    let mut count = 0;
    for before in 0..=200 {
        for behind in [0, 1, 2, 3, 15, 16, 17, 31, 63, 64, 65, 80] {
            let kinds = (0..KINDS.len()).map(|kind| character(&mut random, kind));
            let mut middles: Vec<Vec<u8>> = kinds.collect();
            middles.extend(BAD_KINDS.map(|kind| bad_sequence(&mut random, kind)));
            for middle in middles {
                for kept in 1..=middle.len() {
                    let mut bytes = vec![b'a'; before];
                    bytes.extend(&middle[..kept]);
                    bytes.extend(vec![b'z'; behind]);
                    agree(&bytes, 0, bytes.len());
                    count += 1;
                }
            }
        }
    }
    compared(count, "sequences at each offset of a block");
}

#[test]
fn long_texts_with_one_damaged_byte() {
    let mut random = Random::new(23);
    let mut count = 0;
    for kind in [0, 1, 3, 6] {
        let mut bytes = text_of_kind(&mut random, kind, 4_096);
        for offset in 0..bytes.len() {
            let kept = bytes[offset];
            bytes[offset] = random.pick(&DAMAGE);
            agree(&bytes, 0, 4_096);
            bytes[offset] = kept;
            count += 1;
        }
        let mut bytes = text_of_kind(&mut random, kind, 65_535);
        for offset in (0..80).chain(65_535 - 80..65_535) {
            let kept = bytes[offset];
            bytes[offset] = random.pick(&DAMAGE);
            agree(&bytes, 0, 65_535);
            bytes[offset] = kept;
            count += 1;
        }
    }
    compared(count, "long texts with one damaged byte");
}

#[test]
fn generated_texts() {
    let mut random = Random::new(24);
    let mut count = 0;
    for _ in 0..400_000 {
        let len = random.index(120);
        let good = text_of(&mut random, len);
        assert!(agree(&good, 0, len));
        // Any cut, which may fall inside a character.
        let start = random.index(len + 1);
        let kept = random.index(len - start + 1);
        agree(&good, start, kept);
        let bad = bad_text(&mut random);
        assert!(!agree(&bad, 0, bad.len()));
        let len = random.index(40);
        let mut noise = random.bytes(len);
        noise.iter_mut().for_each(|byte| *byte &= 0xBF);
        agree(&noise, 0, len);
        count += 4;
    }
    compared(count, "generated texts");
}

#[test]
fn parts_outside_the_message() {
    let mut random = Random::new(25);
    let edges = [
        0,
        1,
        15,
        16,
        17,
        64,
        1 << 32,
        1 << 63,
        u64::MAX - 1,
        u64::MAX,
    ];
    let mut count = 0;
    for len in [0u64, 1, 16, 64] {
        let message = vec![b'a'; len as usize];
        for _ in 0..20_000 {
            let mut number = || match random.below(3) {
                0 => random.pick(&edges),
                1 => random.between(0, len + 1),
                _ => random.next_u64(),
            };
            let (start, n) = (number(), number());
            let inside = u128::from(start) + u128::from(n) <= u128::from(len);
            assert_eq!(
                leaves::is_utf8(&message, (start, n)),
                inside.then_some(true),
                "{n} at {start} of {len}"
            );
            count += 1;
        }
    }
    compared(count, "parts within and outside a message");
}
