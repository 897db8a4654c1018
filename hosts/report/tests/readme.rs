//! The README's table of refusals says what the comparisons hold every
//! operation to.

use report::{listed, BODY_READERS, BODY_READERS_UNDER_POLICY, LISTED};
use std::collections::BTreeSet;

const README: &str = include_str!("../../../README.md");

/// A column of the table, and the operations that it is of; those under a
/// policy are in [`UNDER_POLICY`].
const COLUMNS: [(&str, &[&str]); 19] = [
    ("context", &["read section tolerant", "read section strict"]),
    ("keys", &["read keys"]),
    ("body", &BODY_READERS),
    ("record", &["read auth"]),
    ("frames", &["read frames"]),
    ("find", &["find"]),
    ("only authenticated", &["write only authenticated"]),
    ("write context", &["write section"]),
    ("write keys", &["write keys"]),
    ("write body", &["write body"]),
    ("body length", &["body length"]),
    ("write record", &["write auth"]),
    ("write frames", &["write frames"]),
    ("frames length", &["frames length"]),
    ("drop keys", &["drop keys"]),
    ("add key", &["add key"]),
    ("reissue", &["reissue body"]),
    ("reissued length", &["reissued length"]),
    ("listing", &["write listing"]),
];

/// The operations under a policy, by the column of those without.
const UNDER_POLICY: [(&str, &[&str]); 3] = [
    ("body", &BODY_READERS_UNDER_POLICY),
    ("write body", &["write body under policy"]),
    ("body length", &["body length under policy"]),
];

/// Every operation of a column.
fn operations(column: &str) -> impl Iterator<Item = &'static str> + '_ {
    let of_column = COLUMNS.into_iter().chain(UNDER_POLICY);
    let of_column = of_column.filter(move |(name, _)| *name == column);
    of_column.flat_map(|(_, operations)| operations.iter().copied())
}

/// Whether all that a cell says is so of the operation.
fn marks(cell: &str, operation: &str) -> bool {
    let one_version = operation.contains(" v1 ") || operation.contains(" v2 ");
    cell.split(", ").all(|said| match said {
        "" => false,
        "x" => true,
        "strict" => operation.ends_with(" strict"),
        "one version" => one_version,
        "either version" => !one_version,
        "not version 2 only" => !operation.contains(" v2 "),
        "under a policy" => operation.contains(" under policy"),
        _ => panic!("a cell says {cell:?}"),
    })
}

fn cells(line: &str) -> Vec<&str> {
    let inner = line.trim_matches('|');
    inner.split('|').map(str::trim).collect()
}

#[test]
fn the_table_of_refusals() {
    let mut lines = README
        .lines()
        .skip_while(|line| !line.starts_with("| number |"));
    let heads = cells(lines.next().expect("the table's head"));
    assert_eq!(heads[2..], COLUMNS.map(|column| column.0));
    let rows: Vec<Vec<&str>> = lines
        .skip(1)
        .take_while(|line| line.starts_with('|'))
        .map(cells)
        .collect();
    let numbers: Vec<u32> = rows.iter().map(|row| row[0].parse().unwrap()).collect();
    assert!(numbers.iter().copied().eq(1..=40));
    let mut held = 0;
    for (at, (column, _)) in COLUMNS.iter().enumerate() {
        for operation in operations(column) {
            let wanted: BTreeSet<u32> = listed(operation).iter().copied().collect();
            let got: BTreeSet<u32> = rows
                .iter()
                .zip(&numbers)
                .filter(|(row, _)| marks(row[2 + at], operation))
                .map(|(_, number)| *number)
                .collect();
            assert_eq!(got, wanted, "{operation}");
            held += 1;
        }
    }
    assert_eq!(held, LISTED.len());
    report::compared(held as u64, "operations in the README's table");
}
