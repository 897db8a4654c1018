//! Counts of pairs and keys with far fewer bytes behind them than they need: of
//! keys a shortage where the bytes end, of pairs a part that goes past its
//! section, whatever is counted and whatever the table.

use bafirolen::Mode;
use compare_header::answers::Answers;
use compare_header::{reads, requests, writes};
use generator::fields::front;
use generator::image::{keys_with, section, section_with, Form};
use generator::large::{agreeing, plain};
use generator::Pair;

const COUNTS: [u16; 9] = [
    256, 1_024, 10_923, 0x7FFF, 0x8000, 0x8001, 0xFF00, 0xFFFE, 0xFFFF,
];

/// How many bytes there are behind the count.
const BYTES: std::ops::RangeInclusive<usize> = 0..=20;

/// Tables of no number, of a few, and of more than the least count asks for.
const TABLES: [usize; 3] = [0, 30, 1_600];

/// Zeros are empty parts of keys: each takes two bytes, so the first that
/// isn't there ends behind the last even number of bytes.
fn short_zeros(before: usize, bytes: usize) -> u64 {
    (before + bytes / 2 * 2 + 2) as u64
}

/// Maxima: the first three let the count pass, the other three don't.
fn maxima(count: u16) -> [(Option<u64>, bool); 6] {
    let count = u64::from(count);
    [
        (None, true),
        (Some(count), true),
        (Some(u64::MAX), true),
        (Some(count - 1), false),
        (Some(0), false),
        (Some(255), false),
    ]
}

#[test]
fn of_keys() {
    let mut answers = Answers::default();
    for count in COUNTS {
        for bytes in BYTES {
            let mut message = keys_with(&[], count).bytes;
            message.resize(2 + bytes, 0);
            for length in TABLES {
                let table = vec![5; length];
                for (max, passes) in maxima(count) {
                    let (answer, _) =
                        reads::read_encrypted_data_keys_section(&message, 0, max, &table);
                    match passes {
                        true => answers.short(&answer, short_zeros(2, bytes)),
                        false => answers.met(&answer, 15),
                    }
                }
            }
        }
    }
    let each = 3 * (COUNTS.len() * BYTES.count() * TABLES.len()) as u64;
    let wanted = [(2, each), (15, each)];
    answers.assert_are("key sections with large counts", &wanted);
}

/// The same in bodies of both versions, behind an empty context and behind
/// one of two pairs.
#[test]
fn of_keys_in_bodies() {
    let mut answers = Answers::default();
    for (version, pairs) in [(1, 0), (1, 2), (2, 0), (2, 2)] {
        let mut fields = plain(version);
        fields.pairs = agreeing(1, 1, pairs);
        let mut image = front(&fields);
        image.image(&section(&fields.pairs, Form::Today));
        for (count, bytes) in COUNTS.into_iter().flat_map(|c| BYTES.map(move |b| (c, b))) {
            let mut message = image.bytes.clone();
            message.extend(count.to_be_bytes());
            let before = message.len();
            message.resize(before + bytes, 0);
            for (max, passes) in maxima(count) {
                for mut request in requests(version) {
                    request.max = max;
                    let (answer, _) =
                        reads::read_header_body(&message, 0, request, &[3; 8], &[5; 13]);
                    match passes {
                        true => answers.short(&answer, short_zeros(before, bytes)),
                        false => answers.met(&answer, 15),
                    }
                }
            }
            let told = reads::host_answer(&message, 0);
            assert_eq!(told, (2, short_zeros(before, bytes)));
        }
    }
    let each = 4 * 3 * 4 * (COUNTS.len() * BYTES.count()) as u64;
    answers.assert_are("bodies with large key counts", &[(2, each), (15, each)]);
}

/// A section of a count, of which only these pairs and a few zeros are there;
/// the stored length is that of all of them. The zeros are one empty pair,
/// and then the same again.
fn section_short(pairs: &[Pair], count: u16, zeros: usize) -> (Vec<u8>, u32) {
    let mut image = section_with(pairs, 0, count);
    let end = image.bytes.len();
    image.bytes.resize(end + zeros, 0);
    let length = image.bytes.len() as u16 - 2;
    image.bytes[..2].copy_from_slice(&length.to_be_bytes());
    let wanted = match (pairs.len(), zeros) {
        // No byte of a pair is there, and the length is 2.
        (0, 0) => 8,
        (_, 8..) => 12,
        _ => 32,
    };
    (image.bytes, wanted)
}

#[test]
fn of_pairs() {
    let mut answers = Answers::default();
    for (count, zeros) in COUNTS.into_iter().flat_map(|c| BYTES.map(move |b| (c, b))) {
        for there in [0, 1, 5] {
            let pairs = agreeing(1, 1, there);
            let (section, number) = section_short(&pairs, count, zeros);
            for length in TABLES {
                let table = vec![3; length];
                for mode in [Mode::Tolerant, Mode::Strict] {
                    let (answer, _) = reads::read_aad_section(&section, 0, mode, &table);
                    answers.met(&answer, number);
                }
            }
            let answer = reads::find_value(&section, 0, b"a0");
            answers.met(&answer, number);
            let (answer, _) =
                writes::write_only_authenticated(&section, 0, b"a0", &[0, 2], &[7; 10]);
            answers.met(&answer, number);
            in_bodies(&mut answers, &section, number);
        }
    }
    // Eight of the section, and eight of bodies; 13 of the 21 hold a second empty pair.
    let each = 16 * COUNTS.len() as u64;
    let wanted = [(8, each), (12, 3 * 13 * each), (32, (3 * 8 - 1) * each)];
    answers.assert_are("context sections with large counts", &wanted);
}

fn in_bodies(answers: &mut Answers, section: &[u8], number: u32) {
    for version in [1, 2] {
        let mut message = front(&plain(version)).bytes;
        message.extend_from_slice(section);
        for request in requests(version) {
            let (answer, _) = reads::read_header_body(&message, 0, request, &[3; 8], &[]);
            answers.met(&answer, number);
        }
    }
}

/// A stored length far beyond the message: the section as a whole is short,
/// whatever it counts.
#[test]
fn with_lengths_beyond() {
    let mut answers = Answers::default();
    let mut sections = 0;
    for count in COUNTS {
        for length in [0x7FFFu16, 0x8000, 0xFFFF] {
            let section = section_with(&agreeing(1, 1, 3), length, count).bytes;
            for end in 2..section.len() {
                let (answer, _) = reads::read_aad_section(&section[..end], 0, Mode::Strict, &[]);
                answers.short(&answer, 2 + u64::from(length));
                sections += 1;
            }
        }
    }
    // Three pairs of 8 bytes each.
    assert_eq!(sections, 3 * (2 + 3 * 8) * COUNTS.len() as u64);
    answers.assert_are("sections cut, with large counts", &[(2, sections)]);
}

/// 300 pairs, of which the stored length covers one and the next one's first
/// length: nothing behind it is read, however many are counted. Where one is
/// counted, the section ends behind it.
#[test]
fn with_pairs_behind_the_section() {
    let mut answers = Answers::default();
    let mut fields = plain(1);
    fields.pairs = agreeing(1, 3, 300);
    let rows = [
        (1, 14),
        (2, 32),
        (299, 32),
        (300, 32),
        (301, 32),
        (0x7FFF, 32),
        (0x8000, 32),
        (0xFFFF, 32),
    ];
    for (count, number) in rows {
        let section = section_with(&fields.pairs, 14, count).bytes;
        for length in TABLES {
            let table = vec![3; length];
            let (answer, _) = reads::read_aad_section(&section, 0, Mode::Tolerant, &table);
            answers.met(&answer, number);
        }
        let mut body = front(&fields).bytes;
        body.extend_from_slice(&section);
        assert_eq!(reads::host_answer(&body, 0), (number, 0));
        answers.told(number);
    }
    answers.assert_are("pairs behind their section", &[(14, 4), (32, 7 * 4)]);
}
