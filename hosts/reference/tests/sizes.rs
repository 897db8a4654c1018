//! Messages at the greatest length, and above it.

mod common;

use common::{codec::Reference, report_rows};
use generator::rows::sizes;

#[test]
fn messages_of_four_gibibytes() {
    let rows = sizes::messages_of_four_gibibytes(&Reference);
    report_rows("messages of 4 GiB", rows, 5 * 9 + 5 + 6);
}
