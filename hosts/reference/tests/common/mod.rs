//! What the tests share.
#![allow(dead_code)]

pub mod codec;
pub mod fronts;
pub mod plain;
pub mod plain_mending;
pub mod plain_reissuing;
pub mod plain_writes;

use reference::{Mode, Refusal};

pub fn mode(strict: bool) -> Mode {
    if strict {
        Mode::Strict
    } else {
        Mode::Tolerant
    }
}

/// A refusal as a row writes it: number and position.
pub fn refusal(refusal: Refusal) -> (u32, u64) {
    (refusal.number, refusal.position)
}

/// The parts a table names, as bytes.
pub fn parts<'a>(bytes: &'a [u8], table: &[u32]) -> Vec<&'a [u8]> {
    table
        .chunks_exact(2)
        .map(|place| &bytes[place[0] as usize..place[0] as usize + place[1] as usize])
        .collect()
}

/// The pairs of a case as a list of parts.
pub fn pair_parts(pairs: &[generator::Pair]) -> Vec<&[u8]> {
    pairs
        .iter()
        .flat_map(|(key, value)| [key.as_slice(), value.as_slice()])
        .collect()
}

/// The keys of a case as a list of parts.
pub fn key_parts(keys: &[generator::Key]) -> Vec<&[u8]> {
    keys.iter().flatten().map(|part| part.as_slice()).collect()
}

/// Says how many cases a test compared; none is a failure.
pub fn report(name: &str, compared: u64) {
    report::compared(compared, &format!("of the reference: {name}"));
}

/// Says how many rows a test held; none may be lost.
pub fn report_rows(name: &str, rows: u64, wanted: u64) {
    assert_eq!(rows, wanted, "{name}");
    report(name, rows);
}
