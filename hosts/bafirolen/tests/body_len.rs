//! The length of a body before it is written: it foretells what the writer
//! answers to an output of exactly so many bytes, of one less and of one more.

mod common;

use bafirolen::*;
use common::H;

/// H's fields, with the pair and the key at their places in H.
fn draft() -> Draft<'static> {
    Draft::new(Numbers::version_1(0x0178, FRAMED, 4_096), &H[4..20]).with_tables(
        H,
        &[26, 4, 32, 2],
        &[38, 2, 42, 1, 45, 3],
    )
}

/// The writer's answer to an output of so many bytes, and the output.
fn written(draft: &Draft, room: usize) -> (Result<usize, Refusal>, Vec<u8>) {
    let mut out = vec![0xEE; room];
    let answer = write_header_body(draft, &mut out);
    (answer, out)
}

/// The length is this, and what is written is the image.
fn takes(draft: &Draft, image: &[u8]) {
    let length = image.len();
    assert_eq!(header_body_len(draft), Ok(length));
    assert_eq!(written(draft, length), (Ok(length), image.to_vec()));
    let longer = [image, &[0xEE]].concat();
    assert_eq!(written(draft, length + 1), (Ok(length), longer));
    let short = vec![0xEE; length - 1];
    let refused = Err(Refusal::OutputTooShort);
    assert_eq!(written(draft, length - 1), (refused, short));
}

/// H with another context section.
fn with(section: &[u8]) -> Vec<u8> {
    [&H[..20], section, &H[34..]].concat()
}

/// With the pair; without it, in both forms. What is read is as long as what
/// is written again.
#[test]
fn of_both_forms() {
    takes(&draft(), H);
    let bare = draft().with_tables(H, &[], draft().keys);
    takes(&bare, &with(&[0, 0]));
    let mut old = bare;
    old.numbers.form = Form::Old;
    takes(&old, &with(&[0, 2, 0, 0]));
    for header in [H.to_vec(), with(&[0, 0]), with(&[0, 2, 0, 0])] {
        let (mut pairs, mut keys) = ([0; 4], [0; 6]);
        let body = read_header_body(&header, 0, Request::default(), &mut pairs, &mut keys);
        takes(&body.unwrap().draft(), &header);
    }
}

/// An ID and suite data of 32 bytes, and no type: 100 bytes by hand.
#[test]
fn of_version_2() {
    let numbers = Numbers::version_2(0x0578, FRAMED, 4_096);
    let image = [
        &[2, 0x05, 0x78][..],
        &H[..32],
        &H[20..34],
        &H[34..48],
        &[2, 0, 0, 0x10, 0],
        &H[20..52],
    ]
    .concat();
    assert_eq!(image.len(), 100);
    let draft = Draft::new(numbers, &H[..32])
        .with_suite_data(&H[20..52])
        .with_tables(H, draft().pairs, draft().keys);
    takes(&draft, &image);
}

/// H's fields with a fault, and the number that it is refused by; the text goes
/// on with letters.
fn faulty(text: &[u8]) -> [(Draft<'_>, u32); 20] {
    let pairs = |pairs: &'static [u32]| draft().with_tables(text, pairs, draft().keys);
    let keys = |keys: &'static [u32]| draft().with_tables(text, draft().pairs, keys);
    let numbers = |change: fn(&mut Numbers)| {
        let mut draft = draft();
        change(&mut draft.numbers);
        draft
    };
    [
        (numbers(|numbers| numbers.version = 3), 3),
        (numbers(|numbers| numbers.message_type = 0), 5),
        (numbers(|numbers| numbers.suite = 0x0179), 6),
        (numbers(|numbers| numbers.suite = 0x0578), 7),
        (Draft::new(draft().numbers, &H[4..19]), 24),
        (pairs(&[26, 4, 32]), 26),
        (pairs(&[26, 4, 58, 65_536]), 27),
        (pairs(&[45, 3, 32, 2]), 10),
        (pairs(&[26, 4, 45, 3]), 11),
        (pairs(&[26, 4, 32, 2, 26, 4, 32, 2]), 12),
        (pairs(&[26, 4, 58, 65_526]), 13),
        (numbers(|numbers| numbers.form = Form::Old), 33),
        (keys(&[38, 2, 42]), 26),
        (keys(&[38, 2, 58, 65_536, 45, 3]), 27),
        (keys(&[]), 38),
        (keys(&[45, 3, 42, 1, 45, 3]), 16),
        (numbers(|numbers| numbers.content_type = 3), 17),
        (numbers(|numbers| numbers.header_iv_length = 0), 19),
        (draft().with_suite_data(H), 25),
        (numbers(|numbers| numbers.frame_length = 0), 20),
    ]
}

/// Without room and with plenty. None of them is 28.
#[test]
fn each_refusal_is_the_writers() {
    let text = [&H[..], &[b'z'; 65_600]].concat();
    for (draft, number) in faulty(&text) {
        let refusal = Refusal::from_number(number, 0);
        assert_eq!(header_body_len(&draft), Err(refusal));
        assert_eq!(refusal.remedy(), Remedy::Reject);
        for room in [0, 70_000] {
            assert_eq!(written(&draft, room), (Err(refusal), vec![0xEE; room]));
        }
        #[cfg(feature = "alloc")]
        assert_eq!(header_body_to_vec(&draft), Err(refusal));
    }
}

/// As long as a body can be, which no output holds that can be had here: parts
/// of 65,535 bytes, all of them the text, and pairs of 65,533.
#[test]
fn longer_than_32_bits_count() {
    let text = [b'a'; 65_535];
    let keys = [0, 65_535].repeat(3 * 65_535);
    let draft = draft().with_tables(&text, &[0, 65_000, 0, 529], &keys);
    let length = 34 + 2 + 65_533 + 65_535 * (6 + 3 * 65_535);
    assert_eq!(header_body_len(&draft), Ok(length));
    // What 32 bits keep of it.
    let (answer, _) = written(&draft, length & 0xFFFF_FFFF);
    assert_eq!(answer, Err(Refusal::OutputTooShort));
}

/// What the writer writes, and nothing behind it.
#[cfg(feature = "alloc")]
#[test]
fn to_a_vector() {
    let vector = header_body_to_vec(&draft()).unwrap();
    assert_eq!(vector, H);
    assert_eq!(vector.capacity(), 58);
    let mut old = draft().with_tables(H, &[], draft().keys);
    old.numbers.form = Form::Old;
    assert_eq!(header_body_to_vec(&old).unwrap(), with(&[0, 2, 0, 0]));
    // A body longer than a context can be.
    let text = [b'a'; 65_535];
    let long = draft().with_tables(&text, draft().pairs, &[0, 65_535, 0, 65_535, 0, 65_535]);
    let vector = header_body_to_vec(&long).unwrap();
    assert_eq!(vector.len(), 34 + 12 + 6 + 3 * 65_535);
    assert_eq!(written(&long, vector.len()), (Ok(vector.len()), vector));
}
