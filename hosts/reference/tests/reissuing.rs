//! Drafts that are reissued, one row each.

mod common;

use common::{codec::Reference, report_rows};
use generator::rows::reissuing::{self, ACCEPTED, REFUSED, SECTIONS};
use generator::rows::reissuing_refusals::{self, ANSWERS, ORDER, ORDER_ACCEPTED};
use generator::rows::{reissuing_long, reissuing_sizes};

#[test]
fn whole() {
    let rows = reissuing::in_full(&Reference);
    report_rows("reissued drafts in full", rows, 3 * ACCEPTED);
    let rows = reissuing::sections(&Reference);
    report_rows("reissued drafts by their parts", rows, SECTIONS * ACCEPTED);
    let rows = reissuing::suites(&Reference);
    report_rows("reissued drafts of every suite", rows, 9 * 2 * ACCEPTED);
}

#[test]
fn drafts_refused() {
    let rows = reissuing_refusals::every_cut(&Reference);
    report_rows("drafts to reissue, cut", rows, 2 * 50 * ANSWERS);
    let rows = reissuing_refusals::fields(&Reference);
    report_rows("drafts to reissue, a byte replaced", rows, 16 * ANSWERS);
    let rows = reissuing_refusals::contexts(&Reference);
    report_rows("drafts to reissue, a faulty context", rows, 9 * ANSWERS);
    let rows = reissuing_refusals::other_version(&Reference);
    report_rows("version 2 to reissue", rows, (94 + 256) * ANSWERS);
    let rows = reissuing_refusals::starts(&Reference);
    report_rows("drafts to reissue, from beyond", rows, 9 * ANSWERS);
}

#[test]
fn what_is_added() {
    let rows = reissuing_refusals::order(&Reference);
    let refused = ORDER - ORDER_ACCEPTED;
    let wanted = refused * REFUSED + ORDER_ACCEPTED * ACCEPTED;
    report_rows("what a reissue adds", rows, wanted);
}

#[test]
fn sizes() {
    let rows = reissuing_sizes::longest_contexts(&Reference)
        + reissuing_sizes::longest_parts(&Reference)
        + reissuing_sizes::many_keys(&Reference);
    let wanted = reissuing_sizes::DRAFTS * ACCEPTED;
    report_rows("reissued drafts by their sizes", rows, wanted);
}

#[test]
fn of_four_gibibytes() {
    let rows = reissuing_long::of_four_gibibytes(&Reference);
    report_rows("reissued drafts of 4 GiB", rows, reissuing_long::ANSWERS);
}
