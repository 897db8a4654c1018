//! A frame length that doesn't go with the content type, in a header that is
//! cut: the shortage comes first, wherever the cut is, and 20 before 22 and 23.

use compare_header::answers::Answers;
use compare_header::{compared, reads, requests};
use generator::fields::{back, Fields};
use generator::large::{agreeing, plain};

/// A content type and a frame length that breaks it.
const BREACHES: [(u32, u32); 8] = [
    (1, 1),
    (1, 0xFF),
    (1, 0x100),
    (1, 0x1_0000),
    (1, 0x0100_0000),
    (1, 0x8000_0000),
    (1, u32::MAX),
    (2, 0),
];

/// Headers of a version with each breach, without pairs and with.
fn breached(version: u32) -> impl Iterator<Item = Fields> {
    BREACHES.into_iter().flat_map(move |breach| {
        [(0, 1), (1, 1), (2, 2)].map(|(pairs, keys)| {
            let mut fields = plain(version);
            (fields.content_type, fields.frame_length) = breach;
            fields.pairs = agreeing(3, 1, pairs);
            fields.keys = vec![[b"p".to_vec(), Vec::new(), vec![0xAA; 5]]; keys];
            fields
        })
    })
}

/// Every cut is a shortage, by every reader of the version; the whole is 20 by
/// the two that take either version, and accepted by the other two.
#[test]
fn every_cut() {
    let mut answers = Answers::default();
    let (mut cuts, mut headers) = (0, 0);
    for fields in [1, 2].into_iter().flat_map(breached) {
        let image = fields.image();
        for cut in 0..image.bytes.len() {
            let position = image.wanted(0, cut as u64).expect("a shortage");
            let message = &image.bytes[..cut];
            for request in requests(fields.version) {
                let (answer, _) = reads::read_header_body(message, 0, request, &[7; 8], &[7; 12]);
                answers.short(&answer, position);
            }
            assert_eq!(reads::host_answer(message, 0), (2, position));
            cuts += 1;
        }
        for (request, wanted) in requests(fields.version).into_iter().zip([20, 20, 0, 0]) {
            let (answer, _) = reads::read_header_body(&image.bytes, 0, request, &[7; 8], &[7; 12]);
            answers.met(&answer, wanted);
        }
        assert_eq!(reads::host_answer(&image.bytes, 0), (20, 0));
        headers += 1;
    }
    assert_eq!(headers, 2 * BREACHES.len() as u64 * 3);
    compared(cuts + headers, "answers to a host on them");
    let wanted = [(0, 2 * headers), (2, 4 * cuts), (20, 2 * headers)];
    answers.assert_are(
        "reads of headers with a frame length off and a cut",
        &wanted,
    );
}

/// Without a key 20 isn't reached by any reader: 38 comes first, of a header
/// that is cut behind its key count as well.
#[test]
fn without_a_key() {
    let mut answers = Answers::default();
    let (mut short, mut refused) = (0, 0);
    for mut fields in [1, 2].into_iter().flat_map(breached) {
        fields.keys.clear();
        let image = fields.image();
        let counted = image.bytes.len() - back(&fields, [0; 4]).bytes.len();
        for cut in 0..=image.bytes.len() {
            let message = &image.bytes[..cut];
            let (number, position) = match cut < counted {
                true => (2, image.wanted(0, cut as u64).expect("a shortage")),
                false => (38, 0),
            };
            for request in requests(fields.version) {
                let (answer, _) = reads::read_header_body(message, 0, request, &[7; 8], &[]);
                answers.expected(&answer, number, position);
            }
            assert_eq!(reads::host_answer(message, 0), (number, position));
            answers.told(number);
        }
        short += counted as u64;
        refused += (image.bytes.len() + 1 - counted) as u64;
    }
    let wanted = [(2, 5 * short), (38, 5 * refused)];
    answers.assert_are("headers with a frame length off and no key", &wanted);
}

/// Tables that are too short as well, and other bytes before the header.
#[test]
fn short_tables_and_starts() {
    let mut answers = Answers::default();
    let mut headers = 0;
    for fields in [1, 2].into_iter().flat_map(breached) {
        // The tables below are those of two pairs and two keys.
        if fields.keys.len() < 2 {
            continue;
        }
        let image = fields.image();
        let mut message = vec![0x55; 9];
        message.extend_from_slice(&image.bytes);
        let end = message.len();
        for (pairs, keys, of_one_version) in [(7, 12, 22), (8, 11, 23), (0, 0, 22)] {
            let (pairs, keys) = (vec![7; pairs], vec![7; keys]);
            let wanted = [20, 20, of_one_version, of_one_version];
            for (request, wanted) in requests(fields.version).into_iter().zip(wanted) {
                let (answer, _) = reads::read_header_body(&message, 9, request, &pairs, &keys);
                answers.met(&answer, wanted);
                let cut = &message[..end - 1];
                let (answer, _) = reads::read_header_body(cut, 9, request, &pairs, &keys);
                answers.short(&answer, end as u64);
            }
        }
        headers += 1;
    }
    assert_eq!(headers, 2 * BREACHES.len() as u64);
    let wanted =
        [(2, 12), (20, 6), (22, 4), (23, 2)].map(|(number, each)| (number, each * headers));
    answers.assert_are("such reads into short tables", &wanted);
}
