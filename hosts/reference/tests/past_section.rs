//! Parts of a context section that end before its end, at it and past it.

mod common;

use common::{codec::Reference, report_rows};
use generator::rows::section_ends as rows;
use generator::section_ends::sections;
use std::collections::BTreeSet;

/// Each answer that ends alone can bring about is among them.
#[test]
fn what_they_answer() {
    let wanted: BTreeSet<u32> = sections().iter().map(|ended| ended.wanted).collect();
    assert_eq!(wanted, BTreeSet::from([0, 8, 14, 32]));
    report_rows(
        "sections with parts about their end",
        sections().len() as u64,
        302,
    );
}

#[test]
fn of_sections() {
    report_rows(
        "parts about a section's end",
        rows::of_sections(&Reference),
        3_628,
    );
}

#[test]
fn of_bodies() {
    let rows = rows::of_bodies(&Reference) + rows::of_headers(&Reference);
    report_rows(
        "parts about a section's end in bodies",
        rows,
        302 * 2 * 2 * 5 + 16 * 5,
    );
}

#[test]
fn listed() {
    let rows = rows::listed(reference::listing);
    report_rows("parts past a section's end listed", rows, 16);
}
