//! Bodies under a policy on generated requests, read, measured and written.
//! Each refusal that an operation lists has to come about.

use compare_header::crossing::Asked;
use compare_header::expected::{as_expected, parts_are};
use compare_header::lengths::Tried;
use compare_header::numbers::number;
use compare_header::records::{self, numbers};
use compare_header::scale::seeds;
use compare_header::under_policy::{header_body_len, read_header_body, write_header_body};
use compare_header::{compared, crossing, Coverage, BODY_READERS_UNDER_POLICY};
use generator::body_cases::{BodyCase, Reader};
use generator::policy_cases::{read_case, write_case, UnderPolicy};
use generator::Expected;

/// In the order of the operations' names: which reader, and whether it is
/// strict.
const READERS: [(Reader, bool); 6] = [
    (Reader::Either, false),
    (Reader::Either, true),
    (Reader::V1, false),
    (Reader::V1, true),
    (Reader::V2, false),
    (Reader::V2, true),
];

fn asked((reader, strict): (Reader, bool), max: Option<u64>) -> Asked {
    Asked {
        which: match reader {
            Reader::Either => 0,
            Reader::V1 => 1,
            Reader::V2 => 2,
        },
        mode: strict.into(),
        has_max: max.is_some().into(),
        max: max.unwrap_or(0),
    }
}

/// Every reader in both modes on each message.
#[test]
fn reads() {
    let mut coverage = Coverage::default();
    let mut count = 0;
    for seed in seeds(200_000) {
        let under = read_case(seed);
        for (reader, operation) in READERS.into_iter().zip(BODY_READERS_UNDER_POLICY) {
            let number = read(seed, &under, reader);
            coverage.count(operation, number);
            count += 1;
        }
    }
    coverage.print();
    coverage.assert_complete(BODY_READERS_UNDER_POLICY);
    compared(count, "reads of bodies under a policy");
}

/// Answers the refusal's number.
fn read(seed: u64, under: &UnderPolicy<BodyCase>, reader: (Reader, bool)) -> u32 {
    let (case, message) = (&under.case, &under.case.message);
    let (record, tables) = read_header_body(
        under.policy,
        (message, case.start),
        asked(reader, case.max),
        &case.pair_table,
        &case.key_table,
    );
    let number = record.number as u32;
    if reader != (case.reader, case.strict) {
        return number;
    }
    let refused = (number != 0).then_some((number, record.position));
    under.expected.assert_met(seed, refused);
    if under.expected == Expected::Accepted {
        let fields = &case.fields;
        assert_eq!(record.numbers, numbers(fields.numbers()), "seed {seed}");
        assert_eq!(record.tail, case.end, "seed {seed}");
        let part = |start: u64, len: u64| &message[start as usize..][..len as usize];
        let id = part(record.message_id_start, record.message_id_len);
        let data = part(record.suite_data_start, record.suite_data_len);
        assert_eq!((id, data), (&fields.id[..], &fields.suite_data[..]));
        let pairs = &tables.pairs[..4 * record.pair_count as usize];
        let wanted = fields.pairs.iter().flat_map(|pair| [&pair.0[..], &pair.1]);
        parts_are(seed, message, pairs, wanted);
        let keys = &tables.keys[..6 * record.key_count as usize];
        let wanted = fields.keys.iter().flatten().map(|part| &part[..]);
        parts_are(seed, message, keys, wanted);
    }
    number
}

/// What is written is the image, built by concatenation alone, which no policy
/// changes.
#[test]
fn writes() {
    let mut coverage = Coverage::default();
    let mut count = 0;
    for seed in seeds(250_000) {
        let UnderPolicy {
            case,
            policy,
            expected,
        } = write_case(seed);
        let (answer, out) = write_header_body(policy, case.lent(), &case.out);
        coverage.count("write body under policy", number(&answer));
        as_expected(seed, &answer, expected);
        if let Ok(length) = answer {
            assert_eq!(out[..length], case.image, "seed {seed}");
        }
        count += 1;
    }
    coverage.print();
    coverage.assert_complete(["write body under policy"]);
    compared(count, "writes of bodies under a policy");
}

/// The length of that image, or the refusal that the faults and the policy
/// decide; 28 is none of those.
#[test]
fn lengths() {
    let mut coverage = Coverage::default();
    let mut count = 0;
    for seed in seeds(300_000) {
        // Other requests than those that are written.
        let UnderPolicy {
            case,
            policy,
            expected,
        } = write_case(!seed);
        let length = header_body_len(policy, case.lent());
        coverage.count("body length under policy", number(&length));
        match expected {
            Expected::Accepted | Expected::Refused(28, _) => {
                assert_eq!(length, Ok(case.image.len()), "seed {seed}");
            }
            refused => as_expected(seed, &length, refused),
        }
        count += 1;
    }
    coverage.print();
    coverage.assert_complete(["body length under policy"]);
    compared(count, "lengths of bodies under a policy");
}

/// Ours with outputs of every length up to a few bytes more than the body's:
/// each answer is foretold, and what isn't written keeps.
#[test]
fn whatever_the_output() {
    let mut tried = Tried::default();
    for seed in seeds(1_000) {
        let UnderPolicy { case, policy, .. } = write_case(seed ^ 0x0B5E_0000);
        let length = header_body_len(policy, case.lent());
        tried.every_output(seed, (length, &case.image), |out| {
            records::answer(crossing::write(case.lent(), Some(policy), out))
        });
    }
    compared(
        tried.both_came_about(),
        "writes under a policy into every output",
    );
}
