//! How many bytes a body takes, asked before it is written, one row each.

mod common;

use common::{codec::Reference, report_rows};
use generator::rows::body_lengths;

#[test]
fn lengths() {
    let rows = body_lengths::lengths(&Reference);
    report_rows("lengths of bodies", rows, 18 * 4);
}

#[test]
fn refusals() {
    let rows = body_lengths::refusals(&Reference);
    report_rows("lengths refused", rows, 26 * 2 * 3);
}

#[test]
fn the_longest() {
    let rows = body_lengths::the_longest(&Reference);
    report_rows("the longest bodies", rows, 2 * (3 * 4 + 2));
}
