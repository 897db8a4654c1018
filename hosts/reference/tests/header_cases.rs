//! The scope's cases of whole headers, their listing and their records.

mod common;

use common::{codec::Reference, report_rows};
use generator::rows::headers;

#[test]
fn header_h_is_read_whole() {
    report_rows("header H", headers::header_h_is_read_whole(&Reference), 5);
}

#[test]
fn header_h_cut_and_moved() {
    let rows = headers::header_h_cut_and_moved(&Reference);
    report_rows("header H cut and moved", rows, 64);
}

#[test]
fn an_empty_context_has_two_forms() {
    let rows = headers::an_empty_context_has_two_forms(&Reference);
    report_rows("an empty context", rows, 8);
}

#[test]
fn each_field_is_tested() {
    report_rows("each field", headers::each_field_is_tested(&Reference), 42);
}

#[test]
fn tables_are_tested_last() {
    report_rows("tables", headers::tables_are_tested_last(&Reference), 5);
}
