//! How many requests are generated.

use std::ops::Range;

/// The comparisons that all generated tests make together by the counts that
/// they name. It takes about a minute on one core.
const BY_DEFAULT: u64 = 29_400_000;

/// With fewer than these, a rare refusal may not come about, and the tests
/// want each that an operation lists.
const LEAST: u64 = 2_000_000;

/// The environment variable `HEADER_CASES` says about how many comparisons
/// all generated tests are to make together.
fn asked() -> u64 {
    match std::env::var("HEADER_CASES") {
        Ok(text) => text
            .parse()
            .ok()
            .filter(|&cases| cases >= LEAST)
            .unwrap_or_else(|| panic!("HEADER_CASES is {text:?}, not a number from {LEAST} on")),
        Err(_) => BY_DEFAULT,
    }
}

/// The seeds of a test that takes `count` requests by default.
pub fn seeds(count: u64) -> Range<u64> {
    0..(u128::from(count) * u128::from(asked()) / u128::from(BY_DEFAULT)) as u64
}

/// The same, but no fewer than by default: for requests that are so few that
/// each refusal only just comes about.
pub fn no_fewer(count: u64) -> Range<u64> {
    0..seeds(count).end.max(count)
}
