//! Context and key sections written, one row each.

mod common;

use common::{codec::Reference, report_rows};
use generator::rows::section_writes;

#[test]
fn section_writers() {
    let rows = section_writes::section_writers(&Reference);
    report_rows("section writers", rows, 25);
}

#[test]
fn counts_and_lengths_of_16_bits() {
    let rows = section_writes::counts_and_lengths_of_16_bits(&Reference);
    report_rows("counts and lengths", rows, 8);
}
