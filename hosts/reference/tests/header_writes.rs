//! Whole headers written, one row each.

mod common;

use common::{codec::Reference, report_rows};
use generator::rows::header_writes;

#[test]
fn header_v2_is_read_and_written() {
    let rows = header_writes::header_v2_is_read_and_written(&Reference);
    report_rows("header of version 2", rows, 7);
}

#[test]
fn header_h_is_written_with_each_fault() {
    let rows = header_writes::header_h_is_written_with_each_fault(&Reference);
    report_rows("header H written", rows, 2 * 14 + 3);
}
