//! Frames, one row each.

mod common;

use common::{codec::Reference, report_rows};
use generator::rows::{frame_sizes, frames, many_frames};

#[test]
fn one_or_two_frames() {
    let rows = frames::one_or_two_frames(&Reference);
    report_rows("one or two frames", rows, 5 * (30 + 24));
}

#[test]
fn cut_and_moved() {
    let rows = frames::cut_and_moved(&Reference);
    report_rows("frames cut and moved", rows, 2 * 115);
}

#[test]
fn tables_of_every_length() {
    let rows = frames::tables_of_every_length(&Reference);
    report_rows("frames into tables of every length", rows, 26);
}

#[test]
fn every_byte() {
    let rows = frames::every_byte(&Reference);
    report_rows("frames with one byte replaced", rows, 114 * 255);
}

#[test]
fn many_frames() {
    let rows = many_frames::many_frames(&Reference);
    report_rows("66,000 frames", rows, 2 + 8 * 5);
}

#[test]
fn frames_of_four_gibibytes() {
    let rows = frame_sizes::frames_of_four_gibibytes(&Reference);
    report_rows("frames of 4 GiB", rows, 8 + 1 + 6 + 2 + 1 + 5 + 4 + 1);
}
