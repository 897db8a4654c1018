//! Frames written, and how long they are before, one row each.

mod common;

use common::{codec::Reference, report_rows};
use generator::rows::{frame_write_sizes, frame_writes};

#[test]
fn images() {
    let rows = frame_writes::images(&Reference);
    report_rows("frames written", rows, 6 * (12 + 1));
}

#[test]
fn refusals() {
    let rows = frame_writes::refusals(&Reference);
    report_rows("frames refused", rows, 3 * 47);
}

#[test]
fn counts() {
    let rows = frame_writes::counts(&Reference);
    report_rows("65,535 frames written", rows, 6 + 13 * 3);
}

#[test]
fn of_four_gibibytes() {
    let rows = frame_write_sizes::of_four_gibibytes(&Reference);
    let wanted = frame_write_sizes::ANSWERS;
    report_rows("frames written from 4 GiB", rows, wanted);
}
