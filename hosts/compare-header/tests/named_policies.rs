//! The policies that the wrapper names, in a request and in a draft, on
//! generated requests. (By their numbers they are compared elsewhere.)

use bafirolen::{Draft, Mode, Policy, Request, Which};
use compare_header::expected::as_expected;
use compare_header::numbers::{number, numbers};
use compare_header::scale::seeds;
use compare_header::{compared, reads, request, writes};
use generator::body_cases::{BodyCase, Reader};
use generator::body_write_cases::BodyWriteCase;
use generator::policy_cases::{read_case, write_case};

/// By its number, if the wrapper names it or names none.
fn named(policy: u32) -> Option<Option<Policy>> {
    let policies = [
        None,
        Some(Policy::ForbidEncryptAllowDecrypt),
        Some(Policy::RequireEncryptAllowDecrypt),
        Some(Policy::RequireEncryptRequireDecrypt),
    ];
    policies.get(policy as usize).copied()
}

fn asked(case: &BodyCase, policy: Option<Policy>) -> Request {
    let which = match case.reader {
        Reader::Either => Which::Either,
        Reader::V1 => Which::V1Only,
        Reader::V2 => Which::V2Only,
    };
    let mode = [Mode::Tolerant, Mode::Strict][usize::from(case.strict)];
    let request = request(which, mode, case.max);
    match policy {
        Some(policy) => request.under(policy),
        None => request,
    }
}

fn draft(case: &BodyWriteCase, policy: Option<Policy>) -> Draft<'_> {
    let lent = case.lent();
    let draft = Draft::new(numbers(&lent.numbers.into()), lent.id)
        .with_suite_data(lent.suite_data)
        .with_tables(lent.text, lent.pairs, lent.keys);
    match policy {
        Some(policy) => draft.under(policy),
        None => draft,
    }
}

#[test]
fn reads() {
    let (mut count, mut forbidden) = (0, 0);
    for seed in seeds(100_000) {
        let under = read_case(seed ^ 0x4A3E_D000);
        let Some(policy) = named(under.policy) else {
            continue;
        };
        let case = &under.case;
        let (message, request) = (&case.message, asked(case, policy));
        let tables = (&case.pair_table, &case.key_table);
        let (answer, _) = reads::read_header_body(message, case.start, request, tables.0, tables.1);
        as_expected(seed, &answer, under.expected);
        if number(&answer) == 39 {
            assert_eq!(policy, Some(Policy::RequireEncryptRequireDecrypt));
            forbidden += 1;
        }
        count += 1;
    }
    assert!(forbidden > 0 && forbidden < count);
    compared(count, "reads under policies that are named");
}

#[test]
fn writes() {
    let (mut count, mut forbidden) = (0, [0; 4]);
    for seed in seeds(100_000) {
        let under = write_case(seed ^ 0x4A3E_D000);
        let Some(policy) = named(under.policy) else {
            continue;
        };
        let case = &under.case;
        let (answer, out) = writes::write_header_body(draft(case, policy), &case.out);
        as_expected(seed, &answer, under.expected);
        if let Ok(length) = answer {
            assert_eq!(out[..length], case.image, "seed {seed}");
        }
        forbidden[under.policy as usize] += u64::from(number(&answer) == 39);
        count += 1;
    }
    let [none, named @ ..] = forbidden;
    assert!(none == 0 && named.iter().all(|&count| count > 0));
    compared(count, "writes under policies that are named");
}
