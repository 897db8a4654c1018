//! The form of a body, read and written, one row each.

mod common;

use common::{codec::Reference, report_rows};
use generator::image::OLD_MARKS;
use generator::rows::forms;

#[test]
fn read_then_written() {
    // Two headers of six are old, which half of the four readers refuse.
    let rows = forms::read_then_written(&Reference);
    let wanted = 2 * (6 * 4 + (4 * 4 + 2 * 2) * 4);
    report_rows("forms read and written", rows, wanted);
}

#[test]
fn every_mark() {
    let marks = OLD_MARKS.len() as u64;
    let rows = forms::every_mark(&Reference);
    let wanted = 2 * (4 + 2 * (4 + (4 + 2) * marks) + 3 * 2 * marks + 1);
    report_rows("marks of a form", rows, wanted);
}

#[test]
fn a_pair_in_the_old_form() {
    let rows = forms::a_pair_in_the_old_form(&Reference);
    report_rows("a pair in the old form", rows, 2 * 2 * (2 * (13 + 12) + 1));
}

#[test]
fn no_pair_in_the_old_form() {
    let rows = forms::no_pair_in_the_old_form(&Reference);
    report_rows("no pair in the old form", rows, 2 * 2 * (1 + 12));
}
