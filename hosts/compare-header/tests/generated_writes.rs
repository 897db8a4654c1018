//! The writers on generated requests. Each refusal that an operation lists
//! has to come about.

use bafirolen::Draft;
use compare_header::expected::as_expected;
use compare_header::numbers::{number, numbers, Answer};
use compare_header::scale::seeds;
use compare_header::writes;
use compare_header::{compared, Coverage};
use generator::auth_cases::auth_write_case;
use generator::body_cases::body_case;
use generator::body_write_cases::body_write_case;
use generator::frame_write_cases::frame_write_case;
use generator::only_cases::only_case;
use generator::write_cases::{write_keys_case, write_section_case};
use generator::Expected;

/// What was written is the image, built by concatenation alone.
fn image_is(seed: u64, (answer, out): &(Answer<usize>, Vec<u8>), expected: Expected, image: &[u8]) {
    as_expected(seed, answer, expected);
    if let Ok(length) = answer {
        assert_eq!(out[..*length], *image, "seed {seed}");
    }
}

#[test]
fn sections() {
    let mut coverage = Coverage::default();
    let mut count = 0;
    for seed in seeds(600_000) {
        let case = write_section_case(seed);
        let answer = writes::write_aad_section(&case.lent.text, &case.lent.pairs, &case.out);
        coverage.count("write section", number(&answer.0));
        image_is(seed, &answer, case.expected, &case.image);
        count += 1;
    }
    coverage.print();
    coverage.assert_complete(["write section"]);
    compared(count, "writes of context sections");
}

#[test]
fn key_sections() {
    let mut coverage = Coverage::default();
    let mut count = 0;
    for seed in seeds(600_000) {
        let case = write_keys_case(seed);
        let answer =
            writes::write_encrypted_data_keys_section(&case.lent.text, &case.lent.keys, &case.out);
        coverage.count("write keys", number(&answer.0));
        image_is(seed, &answer, case.expected, &case.image);
        count += 1;
    }
    coverage.print();
    coverage.assert_complete(["write keys"]);
    compared(count, "writes of key sections");
}

#[test]
fn bodies() {
    let mut coverage = Coverage::default();
    let mut count = 0;
    for seed in seeds(1_000_000) {
        let case = body_write_case(seed);
        let fields = &case.fields;
        let lent = Draft::new(numbers(&fields.numbers().into()), &fields.id)
            .with_suite_data(&fields.suite_data)
            .with_tables(&case.lent.text, &case.lent.pairs, &case.lent.keys);
        let answer = writes::write_header_body(lent, &case.out);
        coverage.count("write body", number(&answer.0));
        image_is(seed, &answer, case.expected, &case.image);
        count += 1;
    }
    coverage.print();
    coverage.assert_complete(["write body"]);
    compared(count, "writes of bodies");
}

#[test]
fn runs_of_frames() {
    let mut coverage = Coverage::default();
    let mut count = 0;
    for seed in seeds(600_000) {
        let case = frame_write_case(seed);
        let answer = writes::write_frames(case.frame_length, &case.text, &case.table, &case.out);
        coverage.count("write frames", number(&answer.0));
        image_is(seed, &answer, case.expected, &case.image);
        count += 1;
    }
    coverage.print();
    coverage.assert_complete(["write frames"]);
    compared(count, "writes of frames");
}

#[test]
fn authentication_records() {
    let mut coverage = Coverage::default();
    let mut count = 0;
    for seed in seeds(600_000) {
        let case = auth_write_case(seed);
        let answer = writes::write_header_auth_tag(case.suite, &case.iv, &case.tag, &case.out);
        coverage.count("write auth", number(&answer.0));
        image_is(seed, &answer, case.expected, &case.image);
        count += 1;
    }
    coverage.print();
    coverage.assert_complete(["write auth"]);
    compared(count, "writes of authentication records");
}

#[test]
fn only_authenticated() {
    let mut coverage = Coverage::default();
    let mut count = 0;
    for seed in seeds(600_000) {
        let case = only_case(seed);
        let (message, text) = (&case.message, case.text());
        let (answer, out) =
            writes::write_only_authenticated(message, case.start, text, &case.required, &case.out);
        coverage.count("write only authenticated", number(&answer));
        as_expected(seed, &answer, case.expected);
        if let (Expected::Accepted, Ok(length)) = (case.expected, answer) {
            assert_eq!(out[..length], case.image, "seed {seed}");
        }
        count += 1;
    }
    coverage.print();
    coverage.assert_complete(["write only authenticated"]);
    compared(count, "writes of what is only authenticated");
}

/// Into an output that the listing fills, and into one that it just doesn't.
#[test]
fn listings() {
    let mut coverage = Coverage::default();
    let mut count = 0;
    for seed in seeds(300_000) {
        let case = body_case(seed);
        let start = case.message.len().min(case.start as usize);
        let message = &case.message[start..];
        let mut room = vec![0; 2 * message.len() + 28];
        let length = bafirolen::write_listing(message, &mut room).expect("there is room");
        for room in [length, length - 1, length + 1 + seed as usize % 50] {
            let answer = writes::write_listing(message, &vec![seed as u8; room]);
            coverage.count("write listing", number(&answer.0));
            count += 1;
        }
    }
    coverage.print();
    coverage.assert_complete(["write listing"]);
    compared(count, "listings");
}
