//! The body readers on generated requests, without a policy and under one.

use crate::common::plain::{self, Buffer};
use crate::common::{key_parts, mode, pair_parts, parts};
use crate::reads::{as_expected, no, number, table_is};
use generator::body_cases::{body_case, BodyCase, Reader};
use generator::policy_cases::{read_case, UnderPolicy};
use generator::Expected;
use reference::*;
use report::Coverage;

pub fn without_a_policy(coverage: &mut Coverage) -> u64 {
    const SEEDS: u64 = 400_000;
    for seed in 0..SEEDS {
        let case = body_case(seed);
        body(seed, &case, (None, case.expected), coverage);
    }
    SEEDS
}

/// The policy forbids some, and decides nothing of the others.
pub fn under_a_policy(coverage: &mut Coverage) -> u64 {
    const SEEDS: u64 = 200_000;
    for seed in 0..SEEDS {
        let UnderPolicy {
            case,
            policy,
            expected,
        } = read_case(!seed);
        body(seed, &case, (Some(policy), expected), coverage);
    }
    SEEDS
}

fn operation(case: &BodyCase, policy: Option<u32>) -> &'static str {
    let names = match case.reader {
        Reader::Either => [
            "read body tolerant",
            "read body strict",
            "read body under policy tolerant",
            "read body under policy strict",
        ],
        Reader::V1 => [
            "read body v1 tolerant",
            "read body v1 strict",
            "read body under policy v1 tolerant",
            "read body under policy v1 strict",
        ],
        Reader::V2 => [
            "read body v2 tolerant",
            "read body v2 strict",
            "read body under policy v2 tolerant",
            "read body under policy v2 strict",
        ],
    };
    names[usize::from(case.strict) + 2 * usize::from(policy.is_some())]
}

/// The answer, and both tables afterwards.
fn read(case: &BodyCase, policy: Option<u32>) -> (Result<Body, Refusal>, [Vec<u32>; 2]) {
    let (mut pairs, mut keys) = (case.pair_table.clone(), case.key_table.clone());
    let which = match case.reader {
        Reader::Either => Which::Either,
        Reader::V1 => Which::V1,
        Reader::V2 => Which::V2,
    };
    let (message, start, mode, max) = (&case.message, case.start, mode(case.strict), case.max);
    let answer = match policy.map(Policy::from) {
        None => read_header_body(message, start, which, mode, max, &mut pairs, &mut keys),
        Some(policy) => {
            let request = Request {
                which,
                mode,
                max,
                policy,
            };
            read_header_body_under_policy(message, start, request, &mut pairs, &mut keys)
        }
    };
    (answer, [pairs, keys])
}

/// The second opinion, for which no policy is one that forbids nothing.
fn plain(case: &BodyCase, policy: Option<u32>) -> Result<plain::Body, plain::No> {
    let only = match case.reader {
        Reader::Either => 0,
        Reader::V1 => 1,
        Reader::V2 => 2,
    };
    let mut buffer = Buffer::new(&case.message, case.start)?;
    let policy = policy.unwrap_or(0);
    let body = plain::body(&mut buffer, only, case.strict, case.max, policy)?;
    plain::need(case.pair_table.len() >= 2 * body.pairs.len(), 22)?;
    plain::need(case.key_table.len() >= 2 * body.keys.len(), 23)?;
    Ok(body)
}

fn body(
    seed: u64,
    case: &BodyCase,
    (policy, expected): (Option<u32>, Expected),
    coverage: &mut Coverage,
) {
    let (answer, [pairs, keys]) = read(case, policy);
    coverage.count(operation(case, policy), number(&answer));
    as_expected(seed, &answer, expected);

    let plain = plain(case, policy);
    assert_eq!(no(&answer), plain.as_ref().err().copied(), "seed {seed}");
    let plain = plain.ok();
    let filled = plain.as_ref().map(|body| &body.pairs[..]);
    table_is(seed, &case.pair_table, &pairs, filled);
    let filled = plain.as_ref().map(|body| &body.keys[..]);
    table_is(seed, &case.key_table, &keys, filled);
    if let (Ok(read), Some(plain)) = (answer, plain) {
        is_plain(seed, case, &read, &plain);
        if expected == Expected::Accepted {
            gives_fields(seed, case, &read, [&pairs, &keys]);
        }
    }
}

fn list(numbers: Numbers) -> [u32; 7] {
    [
        numbers.version,
        numbers.message_type,
        numbers.suite,
        numbers.content_type,
        numbers.iv_length,
        numbers.frame_length,
        numbers.form,
    ]
}

/// A body is the second opinion's.
fn is_plain(seed: u64, case: &BodyCase, read: &Body, plain: &plain::Body) {
    assert_eq!(list(read.numbers()), plain.numbers, "seed {seed}");
    assert_eq!(
        (read.id.start, read.id.within(&case.message)),
        (plain.id.0, Some(&plain.id.1[..]))
    );
    let data = (read.suite_data.start, read.suite_data.within(&case.message));
    assert_eq!(
        data,
        (plain.suite_data.0, Some(&plain.suite_data.1[..])),
        "seed {seed}"
    );
    assert_eq!(
        (read.pairs as usize, read.keys as usize),
        (plain.pairs.len() / 2, plain.keys.len() / 3)
    );
    assert_eq!(read.tail, plain.tail, "seed {seed}");
}

/// A body is the one that the request was made of.
fn gives_fields(seed: u64, case: &BodyCase, read: &Body, [pairs, keys]: [&[u32]; 2]) {
    let fields = &case.fields;
    assert_eq!(list(read.numbers()), fields.numbers(), "seed {seed}");
    assert_eq!(read.tail, case.end, "seed {seed}");
    assert_eq!(read.id.within(&case.message), Some(&fields.id[..]));
    assert_eq!(
        read.suite_data.within(&case.message),
        Some(&fields.suite_data[..])
    );
    let got = parts(&case.message, &pairs[..4 * read.pairs as usize]);
    assert_eq!(got, pair_parts(&fields.pairs), "seed {seed}");
    let got = parts(&case.message, &keys[..6 * read.keys as usize]);
    assert_eq!(got, key_parts(&fields.keys), "seed {seed}");
}
