//! Requests to read and to write a header body under a policy: those without
//! one, and a policy, which decides where it forbids the body.

use crate::body_cases::{body_case, BodyCase};
use crate::body_write_cases::{body_write_case, BodyWriteCase};
use crate::policies::{forbids_reading, forbids_writing, policy};
use crate::random::Random;
use crate::Expected;

/// A request without a policy, the policy, and what is then expected.
#[derive(Clone, Debug)]
pub struct UnderPolicy<Case> {
    pub case: Case,
    pub policy: u32,
    pub expected: Expected,
}

/// Apart from what the seed gives the request.
fn policy_of(seed: u64) -> u32 {
    policy(&mut Random::new(seed ^ 0x9011_C1E5))
}

fn under<Case>(
    (case, policy): (Case, u32),
    forbidden: bool,
    without: Expected,
) -> UnderPolicy<Case> {
    let expected = match forbidden {
        true => Expected::Refused(39, 0),
        false => without,
    };
    UnderPolicy {
        case,
        policy,
        expected,
    }
}

/// The request to read of a seed.
pub fn read_case(seed: u64) -> UnderPolicy<BodyCase> {
    let (case, policy) = (body_case(seed), policy_of(seed));
    let forbidden = forbids_reading(policy, case.reader, &case.message, case.start);
    let without = case.expected;
    under((case, policy), forbidden, without)
}

/// The request to write of a seed.
pub fn write_case(seed: u64) -> UnderPolicy<BodyWriteCase> {
    let (case, policy) = (body_write_case(seed), policy_of(seed));
    let forbidden = forbids_writing(policy, case.fields.numbers());
    let without = case.expected;
    under((case, policy), forbidden, without)
}
