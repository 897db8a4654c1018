//! Drafts on generated requests, from which keys are dropped and to which one
//! is added.

use crate::common::plain::No;
use crate::common::plain_mending::{self as plain, Mended};
use crate::common::refusal;
use crate::reads::{as_expected, number};
use generator::headers::header_h;
use generator::large::zeros;
use generator::mending_cases::{add_case, drop_case};
use generator::Expected;
use reference::*;
use report::Coverage;

/// The buffer afterwards is the second opinion's, and the one that the request
/// was made with; refused, it keeps all of its bytes.
fn is_mended(
    seed: u64,
    (answer, plain): (Result<u64, Refusal>, Result<Mended, No>),
    (before, after): (&[u8], &[u8]),
    (expected, made): (Expected, (usize, &[u8])),
) {
    as_expected(seed, &answer, expected);
    let mended = plain.as_ref().map_or(before, |(_, after)| after);
    assert!(mended == after, "seed {seed}: {answer:?}");
    let tail = plain.map(|(tail, _)| tail);
    assert_eq!(answer.map_err(refusal), tail, "seed {seed}");
    if expected == Expected::Accepted {
        assert_eq!(answer, Ok(made.0 as u64), "seed {seed}");
        assert!(made.1 == after, "seed {seed}");
    }
}

pub fn drops(coverage: &mut Coverage) -> u64 {
    const SEEDS: u64 = 40_000;
    for seed in 0..SEEDS {
        let case = drop_case(seed);
        let mut after = case.buffer.clone();
        let answer = drop_encrypted_data_keys(&mut after, &case.provider_id);
        coverage.count("drop keys", number(&answer));
        let plain = plain::drop_keys(&case.buffer, &case.provider_id);
        let made = (case.expected, (case.tail, &case.after[..]));
        is_mended(seed, (answer, plain), (&case.buffer, &after), made);
    }
    SEEDS
}

pub fn adds(coverage: &mut Coverage) -> u64 {
    const SEEDS: u64 = 40_000;
    for seed in 0..SEEDS {
        let case = add_case(seed);
        let [id, info, ciphertext] = case.key.each_ref().map(|part| &part[..]);
        let mut after = case.buffer.clone();
        let answer = add_encrypted_data_key(&mut after, id, info, ciphertext);
        coverage.count("add key", number(&answer));
        let plain = plain::add_key(&case.buffer, [id, info, ciphertext]);
        let made = (case.expected, (case.tail, &case.after[..]));
        is_mended(seed, (answer, plain), (&case.buffer, &after), made);
    }
    SEEDS
}

/// No seed gives a buffer that is too long: it stands here.
pub fn too_long(coverage: &mut Coverage) -> u64 {
    let mut buffer = zeros(1 << 32);
    let h = header_h();
    buffer[..h.len()].copy_from_slice(&h);
    let answer = drop_encrypted_data_keys(&mut buffer, b"p2");
    assert_eq!(answer, Err(Refusal::of(1)));
    coverage.count("drop keys", 1);
    let answer = add_encrypted_data_key(&mut buffer, b"p2", b"", b"");
    assert_eq!(answer, Err(Refusal::of(1)));
    coverage.count("add key", 1);
    assert!(buffer.starts_with(&h));
    2
}
