//! The papers' cases of context and key sections, one row each.

mod common;

use common::{codec::Reference, report_rows};
use generator::rows::sections;

#[test]
fn sections_at_start_0() {
    let rows = sections::sections_at_start_0(&Reference);
    report_rows("sections at start 0", rows, 62);
}

#[test]
fn the_longest_pairs() {
    let rows = sections::the_longest_pairs(&Reference);
    report_rows("the longest pairs", rows, 7);
}

#[test]
fn keys_that_begin_one_another_differ() {
    let rows = sections::keys_that_begin_one_another_differ(&Reference);
    report_rows("keys that begin one another", rows, 7);
}

#[test]
fn key_sections() {
    report_rows("key sections", sections::key_sections(&Reference), 15);
}

#[test]
fn find_gives_the_value_and_its_companion_the_part() {
    let rows = sections::find_gives_the_value_and_its_companion_the_part(&Reference);
    report_rows("find", rows, 9);
}
