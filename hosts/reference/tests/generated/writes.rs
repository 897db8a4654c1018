//! The writers on generated requests.

use crate::common::plain::No;
use crate::common::plain_writes as plain;
use crate::common::refusal;
use crate::reads::{as_expected, number};
use generator::auth_cases::auth_write_case;
use generator::body_cases::body_case;
use generator::body_write_cases::{body_write_case, BodyWriteCase};
use generator::frame_write_cases::frame_write_case;
use generator::only_cases::only_case;
use generator::policy_cases::{write_case, UnderPolicy};
use generator::write_cases::{write_keys_case, write_section_case, WriteCase};
use generator::Expected;
use reference::*;
use report::Coverage;

/// The output begins with the image and keeps its bytes beyond; refused, it
/// keeps them all. The second opinion's image is the same.
pub fn output_is(
    seed: u64,
    answer: Result<u64, Refusal>,
    (before, after): (&[u8], &[u8]),
    plain: Result<Vec<u8>, No>,
) {
    let plain = match plain {
        Ok(image) if image.len() > before.len() => Err((28, 0)),
        other => other,
    };
    match (answer, plain) {
        (Ok(length), Ok(image)) => {
            assert_eq!(length, image.len() as u64, "seed {seed}");
            assert_eq!(after[..image.len()], image, "seed {seed}");
            assert_eq!(after[image.len()..], before[image.len()..], "seed {seed}");
        }
        (Err(refusal), Err(plain)) => {
            assert_eq!((refusal.number, refusal.position), plain, "seed {seed}");
            assert_eq!(before, after, "seed {seed}");
        }
        (answer, plain) => panic!("seed {seed}: {answer:?} against {plain:?}"),
    }
}

fn section(
    seed: u64,
    case: &WriteCase,
    operation: &'static str,
    coverage: &mut Coverage,
    write: impl Fn(&mut [u8]) -> Result<u64, Refusal>,
    plain: Result<Vec<u8>, No>,
) {
    let mut out = case.out.clone();
    let answer = write(&mut out);
    coverage.count(operation, number(&answer));
    as_expected(seed, &answer, case.expected);
    assert_ne!(case.expected, Expected::Open);
    if answer.is_ok() {
        assert_eq!(out[..case.image.len()], case.image, "seed {seed}");
    }
    output_is(seed, answer, (&case.out, &out), plain);
}

pub fn sections(coverage: &mut Coverage) -> u64 {
    const SEEDS: u64 = 150_000;
    for seed in 0..SEEDS {
        let case = write_section_case(seed);
        let (text, table) = (&case.lent.text, &case.lent.pairs);
        let plain = plain::write_section(text, table);
        let write = |out: &mut [u8]| write_aad_section(text, table, out);
        section(seed, &case, "write section", coverage, write, plain);
    }
    SEEDS
}

pub fn keys(coverage: &mut Coverage) -> u64 {
    const SEEDS: u64 = 100_000;
    for seed in 0..SEEDS {
        let case = write_keys_case(seed);
        let (text, table) = (&case.lent.text, &case.lent.keys);
        let plain = plain::write_keys(text, table);
        let write = |out: &mut [u8]| write_encrypted_data_keys_section(text, table, out);
        section(seed, &case, "write keys", coverage, write, plain);
    }
    SEEDS
}

/// Each is written, and its length asked before: the second opinion's image has
/// as many bytes.
pub fn bodies(coverage: &mut Coverage) -> u64 {
    const SEEDS: u64 = 300_000;
    for seed in 0..SEEDS {
        let case = body_write_case(seed);
        let without = (None, case.expected);
        let operations = ["body length", "write body"];
        body(seed, &case, without, operations, coverage);
    }
    2 * SEEDS
}

/// The same under a policy, which forbids some of them.
pub fn bodies_under_a_policy(coverage: &mut Coverage) -> u64 {
    const SEEDS: u64 = 150_000;
    for seed in 0..SEEDS {
        let UnderPolicy {
            case,
            policy,
            expected,
        } = write_case(!seed);
        let under = (Some(policy), expected);
        let operations = ["body length under policy", "write body under policy"];
        body(seed, &case, under, operations, coverage);
    }
    2 * SEEDS
}

fn body(
    seed: u64,
    case: &BodyWriteCase,
    (policy, expected): (Option<u32>, Expected),
    operations: [&'static str; 2],
    coverage: &mut Coverage,
) {
    let (fields, lent) = (&case.fields, &case.lent);
    let list = fields.numbers();
    let numbers = Numbers::from(list);
    let (id, data) = (&fields.id, &fields.suite_data);
    let (text, pairs, keys) = (&lent.text, &lent.pairs, &lent.keys);
    let none = policy.unwrap_or(0);
    let plain = plain::write_body(list, none, id, data, text, pairs, keys);
    let draft = Draft {
        numbers,
        id,
        suite_data: data,
        text,
        pairs,
        keys,
    };

    let length = match policy.map(Policy::from) {
        None => header_body_len(&numbers, id, data, text, pairs, keys),
        Some(policy) => header_body_len_under_policy(policy, &draft),
    };
    coverage.count(operations[0], number(&length));
    let taken = plain.as_ref().map(|image| image.len() as u64);
    let taken = taken.map_err(|no| *no);
    assert_eq!(length.map_err(refusal), taken, "seed {seed}");

    let mut out = case.out.clone();
    let answer = match policy.map(Policy::from) {
        None => write_header_body(&numbers, id, data, text, pairs, keys, &mut out),
        Some(policy) => write_header_body_under_policy(policy, &draft, &mut out),
    };
    coverage.count(operations[1], number(&answer));
    as_expected(seed, &answer, expected);
    assert_ne!(expected, Expected::Open);
    if answer.is_ok() {
        assert_eq!(out[..case.image.len()], case.image, "seed {seed}");
    }
    output_is(seed, answer, (&case.out, &out), plain);
}

/// As of bodies: each is written, and its length asked before.
pub fn frames(coverage: &mut Coverage) -> u64 {
    const SEEDS: u64 = 200_000;
    for seed in 0..SEEDS {
        let case = frame_write_case(seed);
        let (frame_length, text, table) = (case.frame_length, &case.text, &case.table);
        let plain = plain::write_frames(frame_length, text, table);

        let length = frames_len(frame_length, text, table);
        coverage.count("frames length", number(&length));
        let taken = plain.as_ref().map(|image| image.len() as u64);
        let taken = taken.map_err(|no| *no);
        assert_eq!(length.map_err(refusal), taken, "seed {seed}");

        let mut out = case.out.clone();
        let answer = write_frames(frame_length, text, table, &mut out);
        coverage.count("write frames", number(&answer));
        as_expected(seed, &answer, case.expected);
        assert_ne!(case.expected, Expected::Open);
        if answer.is_ok() {
            assert!(out[..case.image.len()] == case.image, "seed {seed}");
        }
        output_is(seed, answer, (&case.out, &out), plain);
    }
    2 * SEEDS
}

pub fn auth(coverage: &mut Coverage) -> u64 {
    const SEEDS: u64 = 100_000;
    for seed in 0..SEEDS {
        let case = auth_write_case(seed);
        let mut out = case.out.clone();
        let answer = write_header_auth_tag(case.suite, &case.iv, &case.tag, &mut out);
        coverage.count("write auth", number(&answer));
        as_expected(seed, &answer, case.expected);
        match answer {
            Ok(length) => {
                let end = case.image.len();
                assert_eq!(length, end as u64, "seed {seed}");
                assert_eq!(
                    (&out[..end], &out[end..]),
                    (&case.image[..], &case.out[end..])
                );
            }
            Err(_) => assert_eq!(out, case.out, "seed {seed}"),
        }
    }
    SEEDS
}

pub fn only_authenticated(coverage: &mut Coverage) -> u64 {
    const SEEDS: u64 = 200_000;
    for seed in 0..SEEDS {
        let case = only_case(seed);
        let (message, start) = (&case.message, case.start);
        let (text, required) = (case.text(), &case.required);
        let mut out = case.out.clone();
        let answer = write_only_authenticated(message, start, text, required, &mut out);
        coverage.count("write only authenticated", number(&answer));
        as_expected(seed, &answer, case.expected);
        if case.expected == Expected::Accepted {
            assert_eq!(out[..case.image.len()], case.image, "seed {seed}");
        }
        let plain = plain::only_authenticated(message, start, text, required);
        output_is(seed, answer, (&case.out, &out), plain);
    }
    SEEDS
}

/// The text itself is held against other means in `listings`.
pub fn listings(coverage: &mut Coverage) -> u64 {
    const SEEDS: u64 = 50_000;
    for seed in 0..SEEDS {
        let mut message = body_case(seed).message;
        // What the program would ignore.
        message.truncate(65_536);
        let text = listing(&message);
        let before = vec![seed as u8; text.len() + seed as usize % 3 - 1];
        let mut out = before.clone();
        let answer = write_listing(&message, &mut out);
        coverage.count("write listing", number(&answer));
        output_is(seed, answer, (&before, &out), Ok(text));
    }
    SEEDS
}
