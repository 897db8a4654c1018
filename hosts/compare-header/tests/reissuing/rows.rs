//! The rows that are written by hand, held against ours and the separate
//! implementation.

use compare_header::both::Both;
use compare_header::compared;
use generator::rows::reissuing::{self, ACCEPTED, REFUSED, SECTIONS};
use generator::rows::reissuing_refusals::{self, ANSWERS, ORDER, ORDER_ACCEPTED};
use generator::rows::{reissuing_long, reissuing_sizes};

/// None of the rows that a table had is lost.
fn held(rows: u64, wanted: u64, what: &str) {
    assert_eq!(rows, wanted, "{what}");
    compared(rows, what);
}

#[test]
fn whole() {
    let rows = reissuing::in_full(&Both) + reissuing::sections(&Both) + reissuing::suites(&Both);
    let wanted = (3 + SECTIONS + 9 * 2) * ACCEPTED;
    held(rows, wanted, "rows of drafts reissued");
}

#[test]
fn refused() {
    let rows = reissuing_refusals::every_cut(&Both)
        + reissuing_refusals::fields(&Both)
        + reissuing_refusals::contexts(&Both)
        + reissuing_refusals::other_version(&Both)
        + reissuing_refusals::starts(&Both);
    let wanted = (2 * 50 + 16 + 9 + (94 + 256) + 9) * ANSWERS;
    held(rows, wanted, "rows of drafts that aren't reissued");
    let rows = reissuing_refusals::order(&Both);
    let wanted = (ORDER - ORDER_ACCEPTED) * REFUSED + ORDER_ACCEPTED * ACCEPTED;
    held(rows, wanted, "rows of what a reissue adds");
}

#[test]
fn sizes() {
    let rows = reissuing_sizes::longest_contexts(&Both)
        + reissuing_sizes::longest_parts(&Both)
        + reissuing_sizes::many_keys(&Both);
    let wanted = reissuing_sizes::DRAFTS * ACCEPTED;
    held(rows, wanted, "rows of drafts reissued, by their sizes");
}

#[test]
fn of_four_gibibytes() {
    let rows = reissuing_long::of_four_gibibytes(&Both);
    held(
        rows,
        reissuing_long::ANSWERS,
        "rows of drafts reissued, of 4 GiB",
    );
}
