//! The rows of drafts that are written by hand, held against ours and the
//! separate implementation.

use compare_header::both::Both;
use compare_header::compared;
use compare_header::mends::Ours;
use generator::rows::mending::DRAFTS;
use generator::rows::mending_refusals::ANSWERS;
use generator::rows::{
    key_adds, key_drops, mending, mending_long, mending_refusals, mending_sizes,
};

/// None of the rows that a table had is lost.
fn held(rows: u64, wanted: u64, what: &str) {
    assert_eq!(rows, wanted, "{what}");
    compared(rows, what);
}

#[test]
fn keys_dropped_and_added() {
    let rows = key_drops::drops(&Both) + key_adds::adds(&Both) + mending::in_full(&Both);
    let wanted = DRAFTS * (32 * 3 + 10 * 5 + 6 * 3) + 2;
    held(rows, wanted, "rows of drafts");
}

#[test]
fn drafts_refused() {
    let rows = mending_refusals::every_cut(&Both)
        + mending_refusals::fields(&Both)
        + mending_refusals::contexts(&Both)
        + mending_refusals::order(&Both);
    let wanted = (50 + 92 + 27 + 9 * 2) * ANSWERS + 2 * 7 * 3;
    held(rows, wanted, "rows of drafts refused");
}

#[test]
fn sizes() {
    let rows = mending_sizes::counts(&Both)
        + mending_sizes::longest_parts(&Both)
        + mending_sizes::most_keys_dropped(&Both)
        + mending_sizes::most_keys_added(&Both);
    let counts = 9 * 2 * (2 + 2);
    let wanted = counts + 2 * (3 * (2 + 3 + 1) + 4) + 2 * (3 + 3 + 1) + 2 * (2 * 2 + 3);
    held(rows, wanted, "rows of drafts by their sizes");
}

/// Of which there are no copies to hold against each other: the tests of the
/// separate implementation have the same rows.
#[test]
fn drafts_of_four_gibibytes() {
    let rows = mending_long::of_four_gibibytes(&Ours);
    held(rows, mending_long::ANSWERS, "rows of drafts of 4 GiB");
}
