//! Places whose start and length are each 32-bit numbers and whose sum is not:
//! cut to 32 bits it would lie inside the text. Each is outside (26, and 31 of
//! required keys).

use compare_header::answers::Answers;
use compare_header::every::write_body;
use compare_header::writes;
use generator::headers::hex;
use generator::large::plain;
use generator::tables::Lent;

/// The text's length in most of the requests.
const TEXT: u32 = 300;

/// Start and length; each sum is 2^32 or up to `TEXT` above it.
const WRAPPING: [(u32, u32); 14] = [
    (0xFFFF_FFFF, 1),
    (0xFFFF_FFFF, 2),
    (0xFFFF_FFFF, TEXT + 1),
    (0xFFFF_FFF0, 0x10),
    (0xFFFF_FFF0, 0x11),
    (0xFFFF_FF00, 0x100 + TEXT),
    (0xFFFF_0001, 0xFFFF),
    (0x8000_0000, 0x8000_0000),
    (0x8000_0000, 0x8000_0005),
    (0x7FFF_FFFF, 0x8000_0001),
    (1, 0xFFFF_FFFF),
    (2, 0xFFFF_FFFF),
    (100, 0xFFFF_FF9C),
    (TEXT, 0xFFFF_FFFF),
];

/// Three pairs and two keys, six places each, in a text of `TEXT` bytes.
fn lent() -> Lent {
    Lent {
        text: vec![b'a'; TEXT as usize],
        pairs: vec![0, 1, 5, 9, 0, 2, 300, 0, 7, 3, 200, 100],
        keys: vec![0, 4, 0, 300, 299, 1, 8, 8, 300, 0, 0, 0],
    }
}

/// Every writer into an output without room and into one with plenty. Wanted
/// are the numbers of the context's writer, the keys' and the body's; without
/// room an acceptance is 28.
fn write(answers: &mut Answers, lent: &Lent, [context, keys, body]: [u32; 3]) {
    for room in [0, 2_000] {
        let out = vec![0x11; room];
        let wanted = |number: u32| match (number, room) {
            (0, 0) => 28,
            _ => number,
        };
        let (answer, _) = writes::write_aad_section(&lent.text, &lent.pairs, &out);
        answers.met(&answer, wanted(context));
        let (answer, _) = writes::write_encrypted_data_keys_section(&lent.text, &lent.keys, &out);
        answers.met(&answer, wanted(keys));
        for version in [1, 2] {
            let (answer, _) = write_body(&plain(version), lent, &out);
            answers.met(&answer, wanted(body));
        }
    }
}

#[test]
fn every_place_of_every_writer() {
    let mut answers = Answers::default();
    write(&mut answers, &lent(), [0, 0, 0]);
    answers.assert_are("writes of places inside", &[(0, 4), (28, 4)]);
    let mut answers = Answers::default();
    for (start, length) in WRAPPING {
        let sum = u64::from(start) + u64::from(length);
        assert!(sum >= 1 << 32 && sum <= (1 << 32) + u64::from(TEXT));
        for place in 0..6 {
            let mut lent = lent();
            lent.pairs[2 * place..2 * place + 2].copy_from_slice(&[start, length]);
            write(&mut answers, &lent, [26, 0, 26]);
            let mut lent = self::lent();
            lent.keys[2 * place..2 * place + 2].copy_from_slice(&[start, length]);
            write(&mut answers, &lent, [0, 26, 26]);
        }
    }
    let requests = 2 * 6 * WRAPPING.len() as u64;
    let wanted = [(0, 1), (26, 6), (28, 1)].map(|(number, each)| (number, each * requests));
    answers.assert_are("writes of places whose sum wraps", &wanted);
}

/// No byte is lent, and the sum cut to 32 bits is 0.
#[test]
fn in_an_empty_text() {
    let mut answers = Answers::default();
    let empty = WRAPPING
        .into_iter()
        .filter(|&(start, length)| start.wrapping_add(length) == 0);
    let mut requests = 0;
    for (start, length) in empty {
        let lent = Lent {
            text: Vec::new(),
            pairs: vec![0, 0, start, length],
            keys: vec![0, 0, 0, 0, start, length],
        };
        write(&mut answers, &lent, [26, 26, 26]);
        requests += 1;
    }
    assert_eq!(requests, 7);
    answers.assert_are("writes of places in an empty text", &[(26, 8 * requests)]);
}

/// Faults that come later, bytes that are no text (10, 16) and parts that are
/// too long (27), are not reached.
#[test]
fn with_a_later_fault() {
    let mut answers = Answers::default();
    for (start, length) in WRAPPING {
        let mut lent = lent();
        lent.text[0] = 0xFF;
        lent.pairs[10..].copy_from_slice(&[start, length]);
        lent.keys[10..].copy_from_slice(&[start, length]);
        write(&mut answers, &lent, [26, 26, 26]);
        lent.text.resize(70_000, b'a');
        lent.pairs[..4].copy_from_slice(&[0, 66_000, 0, 66_000]);
        lent.keys[..4].copy_from_slice(&[0, 66_000, 0, 66_000]);
        write(&mut answers, &lent, [26, 26, 26]);
    }
    let requests = 2 * WRAPPING.len() as u64;
    answers.assert_are("writes with a later fault", &[(26, 8 * requests)]);
}

/// Each place of two frames in turn, with room and without, also where another
/// part has a later fault; and in an empty text.
#[test]
fn of_frames() {
    let text = vec![b'a'; TEXT as usize];
    let write = |text: &[u8], frames: &[u32], room: usize| {
        writes::write_frames(100, text, frames, &vec![0x11; room]).0
    };
    let mut answers = Answers::default();
    for (start, length) in WRAPPING {
        for place in 0..6 {
            let mut frames = [0, 12, 200, 100, 284, 16, 288, 12, 7, 3, 0, 16];
            answers.met(&write(&text, &frames, 175), 0);
            answers.met(&write(&text, &frames, 174), 28);
            frames[2 * place..2 * place + 2].copy_from_slice(&[start, length]);
            for room in [0, 175, 2_000] {
                answers.met(&write(&text, &frames, room), 26);
            }
            // A part before or behind it that is a byte too short.
            frames[2 * ((place + 1) % 6) + 1] -= 1;
            answers.met(&write(&text, &frames, 175), 26);
        }
        answers.met(&write(&[], &[0, 0, start, length, 0, 0], 175), 26);
    }
    let each = WRAPPING.len() as u64;
    let wanted = [(0, 6 * each), (26, 25 * each), (28, 6 * each)];
    answers.assert_are("frames' places whose sum wraps", &wanted);
}

/// What is only authenticated, of a section with one pair whose key is the
/// first letter: each of three required places in turn, in a text of `TEXT`
/// letters and in an empty one, with room and without.
#[test]
fn of_required_keys() {
    let section = hex("00 08 00 01 00 01 61 00 01 62");
    let text = vec![b'a'; TEXT as usize];
    let write = |text: &[u8], required: &[u32], room: usize| {
        writes::write_only_authenticated(&section, 0, text, required, &vec![0x11; room]).0
    };
    let mut answers = Answers::default();
    for (start, length) in WRAPPING {
        for place in 0..3 {
            let mut required = [0, 1, TEXT, 0, 7, 3];
            answers.met(&write(&text, &required, 8), 0);
            answers.met(&write(&text, &required, 7), 28);
            required[2 * place..2 * place + 2].copy_from_slice(&[start, length]);
            for room in [0, 8, 2_000] {
                answers.met(&write(&text, &required, room), 31);
            }
        }
        answers.met(&write(&[], &[start, length], 8), 31);
    }
    let each = WRAPPING.len() as u64;
    let wanted = [(0, 3 * each), (28, 3 * each), (31, 10 * each)];
    answers.assert_are("required places whose sum wraps", &wanted);
}
