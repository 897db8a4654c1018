//! Keys dropped from drafts, and keys added to them, one row each.

mod common;

use common::{codec::Reference, report_rows};
use generator::rows::mending::DRAFTS;
use generator::rows::{key_adds, key_drops, mending, mending_long, mending_refusals};
use generator::rows::{mending_refusals::ANSWERS, mending_sizes};

#[test]
fn keys_dropped() {
    let rows = key_drops::drops(&Reference);
    report_rows("keys dropped", rows, 32 * DRAFTS * 3);
}

#[test]
fn keys_added() {
    let rows = key_adds::adds(&Reference);
    report_rows("keys added", rows, DRAFTS * (10 * 5 + 6 * 3));
}

#[test]
fn in_full() {
    let rows = mending::in_full(&Reference);
    report_rows("a draft in full", rows, 2);
}

#[test]
fn drafts_refused() {
    let rows = mending_refusals::every_cut(&Reference);
    report_rows("drafts cut", rows, (50 + 92) * ANSWERS);
    let rows = mending_refusals::fields(&Reference);
    report_rows("drafts with one byte replaced", rows, 27 * ANSWERS);
    let rows = mending_refusals::contexts(&Reference);
    report_rows("drafts with a faulty context", rows, 9 * 2 * ANSWERS);
    let rows = mending_refusals::order(&Reference);
    report_rows("what is added, refused", rows, 2 * 7 * 3);
}

#[test]
fn sizes() {
    let rows = mending_sizes::counts(&Reference);
    report_rows("drafts by their counts", rows, 9 * 2 * (2 + 2));
    let rows = mending_sizes::longest_parts(&Reference);
    let wanted = 2 * (3 * (2 + 3 + 1) + 4);
    report_rows("drafts with the longest parts", rows, wanted);
    let rows = mending_sizes::most_keys_dropped(&Reference);
    report_rows("drafts with the most keys, dropped", rows, 2 * (3 + 3 + 1));
    let rows = mending_sizes::most_keys_added(&Reference);
    report_rows("drafts with the most keys, added", rows, 2 * (2 * 2 + 3));
}

#[test]
fn of_four_gibibytes() {
    let rows = mending_long::of_four_gibibytes(&Reference);
    report_rows("drafts of 4 GiB", rows, mending_long::ANSWERS);
}
