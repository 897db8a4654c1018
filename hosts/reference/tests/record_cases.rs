//! Cases of authentication records, one row each.

mod common;

use common::{codec::Reference, report_rows};
use generator::rows::records;

#[test]
fn authentication_records() {
    let rows = records::authentication_records(&Reference);
    report_rows("authentication records", rows, 20);
}
