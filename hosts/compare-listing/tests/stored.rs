//! The stored listings: `listings.txt` was written by hand from documents 01
//! and 02, and is held against the program and against the separate implementation.
//!
//! A case is its name behind `== `, the message in hexadecimal, a line `--`,
//! and the listing, line for line.

use compare_listing::{compared, listed};
use generator::headers::hex;
use std::collections::BTreeSet;

const STORED: &str = include_str!("../listings.txt");

/// What a message can cause where the program reads: start 0, no maximum,
/// tolerant. Those of tables that are too short are in `limits`.
const REFUSALS: [u32; 18] = [
    2, 3, 5, 6, 7, 8, 9, 10, 11, 12, 14, 16, 17, 18, 19, 20, 32, 38,
];

/// Name, message and listing of each case.
fn cases() -> impl Iterator<Item = (&'static str, Vec<u8>, &'static str)> {
    STORED.split("== ").skip(1).map(|case| {
        let (name, rest) = case.split_once('\n').expect("a name has a line");
        let (bytes, listing) = rest
            .split_once("--\n")
            .expect("a message has an end, and a listing behind it");
        (name, hex(bytes), listing)
    })
}

#[test]
fn every_stored_listing() {
    let mut refusals = BTreeSet::new();
    let mut count = 0;
    for (name, message, listing) in cases() {
        listed(name, &message, listing.as_bytes());
        if let Some(rest) = listing.strip_prefix("refused\t") {
            let number = rest.split('\t').next().expect("a number");
            refusals.insert(number.parse().expect("a decimal number"));
        }
        count += 1;
    }
    assert_eq!(refusals, BTreeSet::from(REFUSALS));
    compared(count, "stored listings");
}
