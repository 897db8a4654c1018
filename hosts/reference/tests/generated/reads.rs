//! The readers on generated requests.

use crate::common::plain::{self, Buffer, No, Part};
use crate::common::{key_parts, mode, pair_parts, parts, refusal};
use generator::auth_cases::auth_case;
use generator::key_cases::key_case;
use generator::section_cases::{section_case, SectionCase};
use generator::Expected;
use reference::*;
use report::Coverage;

/// The answer is the one the damage decides, if it decides one.
pub fn as_expected<T>(seed: u64, answer: &Result<T, Refusal>, expected: Expected) {
    expected.assert_met(seed, no(answer));
}

/// The refusal's number, 0 where there is none.
pub fn number<T>(answer: &Result<T, Refusal>) -> u32 {
    answer.as_ref().err().map_or(0, |refusal| refusal.number)
}

pub fn no<T>(answer: &Result<T, Refusal>) -> Option<No> {
    answer
        .as_ref()
        .err()
        .map(|refusal| (refusal.number, refusal.position))
}

/// The table holds these parts' places, and keeps its numbers beyond them; or
/// all of them, if the answer was a refusal.
pub fn table_is(seed: u64, before: &[u32], after: &[u32], filled: Option<&[Part]>) {
    let mut wanted = before.to_vec();
    for (i, (start, bytes)) in filled.unwrap_or(&[]).iter().enumerate() {
        wanted[2 * i] = *start as u32;
        wanted[2 * i + 1] = bytes.len() as u32;
    }
    assert_eq!(wanted, after, "seed {seed}: table");
}

/// A section as both read it, with the table before and after: `read` gives
/// count and tail, `plain` the parts and the tail; `numbers` a pair or key
/// takes in the table. Answers how many numbers were filled.
pub fn section(
    seed: u64,
    tables: [&[u32]; 2],
    numbers: usize,
    read: Result<(u32, u64), No>,
    plain: Result<(Vec<Part>, u64), No>,
) -> usize {
    let [before, after] = tables;
    let filled = plain.as_ref().ok().map(|(parts, _)| parts.as_slice());
    table_is(seed, before, after, filled);
    let numbers = read.map_or(0, |(count, _)| numbers * count as usize);
    assert_eq!(numbers, 2 * filled.map_or(0, <[Part]>::len), "seed {seed}");
    let tail = plain.map(|(_, tail)| tail);
    assert_eq!(read.map(|(_, tail)| tail), tail, "seed {seed}");
    numbers
}

/// The parts that a buffer gives and where they end; or the refusal of a
/// table that is too short for them.
pub fn within(
    parts: Vec<Part>,
    buffer: &Buffer,
    table: &[u32],
    number: u32,
) -> Result<(Vec<Part>, u64), No> {
    if table.len() < 2 * parts.len() {
        return Err((number, 0));
    }
    Ok((parts, buffer.start as u64))
}

pub fn sections(coverage: &mut Coverage) -> u64 {
    const SEEDS: u64 = 200_000;
    for seed in 0..SEEDS {
        let case = section_case(seed);
        let operation = if case.strict {
            "read section strict"
        } else {
            "read section tolerant"
        };
        let mut table = case.table.clone();
        let answer = read_aad_section(&case.message, case.start, mode(case.strict), &mut table);
        coverage.count(operation, number(&answer));
        as_expected(seed, &answer, case.expected);

        let plain = Buffer::new(&case.message, case.start).and_then(|mut buffer| {
            let parts = plain::section(&mut buffer, case.strict)?;
            within(parts, &buffer, &case.table, 22)
        });
        let read = answer.map(|read| (read.pairs, read.tail)).map_err(refusal);
        let filled = section(seed, [&case.table, &table], 4, read, plain);
        if case.expected == Expected::Accepted {
            assert_eq!(read.map(|(_, tail)| tail), Ok(case.end), "seed {seed}");
            let got = parts(&case.message, &table[..filled]);
            assert_eq!(got, pair_parts(&case.pairs), "seed {seed}");
        }
        finds(seed, &case, coverage);
    }
    2 * SEEDS
}

fn finds(seed: u64, case: &SectionCase, coverage: &mut Coverage) {
    let answer = find(&case.message, case.start, &case.asked);
    coverage.count("find", number(&answer));
    as_expected(seed, &answer, case.find_expected);
    let part = find_part(&case.message, case.start, &case.asked);
    let plain = Buffer::new(&case.message, case.start).and_then(|mut buffer| {
        let parts = plain::section(&mut buffer, false)?;
        let at = parts
            .iter()
            .step_by(2)
            .position(|(_, key)| *key == case.asked);
        at.map(|at| parts[2 * at + 1].clone()).ok_or((29, 0))
    });
    match (answer, plain) {
        (Ok(place), Ok((start, bytes))) => {
            assert_eq!(
                (place.start, place.len),
                (start, bytes.len() as u64),
                "seed {seed}"
            );
            assert_eq!(part, bytes, "seed {seed}");
            assert_eq!(part.as_ptr(), case.message[place.start as usize..].as_ptr());
            if case.find_expected == Expected::Accepted {
                assert_eq!(part, case.pairs[case.at].1, "seed {seed}");
            }
        }
        (Err(refusal), Err(plain)) => {
            assert_eq!((refusal.number, refusal.position), plain, "seed {seed}");
            assert!(
                part.is_empty() && part.as_ptr() == case.message.as_ptr(),
                "seed {seed}"
            );
        }
        (answer, plain) => panic!("seed {seed}: {answer:?} against {plain:?}"),
    }
}

pub fn keys(coverage: &mut Coverage) -> u64 {
    const SEEDS: u64 = 150_000;
    for seed in 0..SEEDS {
        let case = key_case(seed);
        let mut table = case.table.clone();
        let answer =
            read_encrypted_data_keys_section(&case.message, case.start, case.max, &mut table);
        coverage.count("read keys", number(&answer));
        as_expected(seed, &answer, case.expected);

        let plain = Buffer::new(&case.message, case.start).and_then(|mut buffer| {
            let parts = plain::keys(&mut buffer, case.max)?;
            within(parts, &buffer, &case.table, 23)
        });
        let read = answer.map(|read| (read.keys, read.tail)).map_err(refusal);
        let filled = section(seed, [&case.table, &table], 6, read, plain);
        if case.expected == Expected::Accepted {
            assert_eq!(read.map(|(_, tail)| tail), Ok(case.end), "seed {seed}");
            let got = parts(&case.message, &table[..filled]);
            assert_eq!(got, key_parts(&case.keys), "seed {seed}");
        }
    }
    SEEDS
}

pub fn auth(coverage: &mut Coverage) -> u64 {
    const SEEDS: u64 = 100_000;
    for seed in 0..SEEDS {
        let case = auth_case(seed);
        let answer = read_header_auth_tag(&case.message, case.start, case.suite);
        coverage.count("read auth", number(&answer));
        as_expected(seed, &answer, case.expected);
        assert_ne!(case.expected, Expected::Open);
        if let Ok(read) = answer {
            assert_eq!(
                (read.iv, read.tag, read.tail),
                (case.iv, case.tag, case.end),
                "seed {seed}"
            );
        }
    }
    SEEDS
}
