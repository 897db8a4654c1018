//! Key sections and headers without a key, one row each.

mod common;

use common::{codec::Reference, report_rows};
use generator::rows::no_key;

#[test]
fn sections() {
    let rows = no_key::sections(&Reference);
    report_rows("key sections without a key", rows, 14 * 2 * 2);
}

#[test]
fn headers() {
    let rows = no_key::every_cut(&Reference);
    // Of 46 and of 76 bytes; a message is read 20 times, and told to a host.
    report_rows("headers without a key, cut", rows, (47 + 77) * 21);
    let rows = no_key::contexts(&Reference) + no_key::fronts(&Reference);
    let wanted = 12 * (6 + 4) * 21 + (7 * 21 + 4);
    report_rows("headers without a key and with a fault", rows, wanted);
}

#[test]
fn listed() {
    let rows = no_key::listed(reference::listing);
    report_rows("headers without a key listed", rows, 6);
}

#[test]
fn written() {
    let rows = no_key::sections_written(&Reference);
    report_rows("no key written", rows, 5 * 5);
    let rows = no_key::bodies_written(&Reference);
    let wanted = 2 * 4 * (1 + 15 + 2 * 5) * 3;
    report_rows("bodies without a key written", rows, wanted);
}
