//! The rows that are written by hand, held against ours and the separate
//! implementation: what both answered is what the row has.

use compare_header::both::{listing, Both};
use compare_header::{compared, reads};
use generator::image::OLD_MARKS;
use generator::rows::{body_lengths, forms, frame_sizes, frame_write_sizes, frame_writes, frames};
use generator::rows::{header_writes, headers, listings, many_frames, no_key, only_authenticated};
use generator::rows::{policies, policies::NUMBERS, policy_faults, policy_writes};
use generator::rows::{records, section_writes, sections, sizes, under};

/// None of the rows that a table had is lost.
fn held(rows: u64, wanted: u64, what: &str) {
    assert_eq!(rows, wanted, "{what}");
    compared(rows, what);
}

#[test]
fn headers_read() {
    let rows = headers::header_h_is_read_whole(&Both)
        + headers::header_h_cut_and_moved(&Both)
        + headers::an_empty_context_has_two_forms(&Both)
        + headers::each_field_is_tested(&Both)
        + headers::tables_are_tested_last(&Both);
    held(rows, 5 + 64 + 8 + 42 + 5, "rows of headers");
}

#[test]
fn headers_written() {
    let rows = header_writes::header_v2_is_read_and_written(&Both)
        + header_writes::header_h_is_written_with_each_fault(&Both);
    held(rows, 7 + (2 * 14 + 3), "rows of headers written");
}

#[test]
fn lengths_of_bodies() {
    let rows = body_lengths::lengths(&Both)
        + body_lengths::refusals(&Both)
        + body_lengths::the_longest(&Both);
    let wanted = 18 * 4 + 26 * 2 * 3 + 2 * (3 * 4 + 2);
    held(rows, wanted, "rows of lengths of bodies");
}

#[test]
fn forms_of_bodies() {
    let rows = forms::read_then_written(&Both)
        + forms::every_mark(&Both)
        + forms::a_pair_in_the_old_form(&Both)
        + forms::no_pair_in_the_old_form(&Both);
    let marks = OLD_MARKS.len() as u64;
    let again = 2 * (6 * 4 + (4 * 4 + 2 * 2) * 4);
    let marked = 2 * (4 + 2 * (4 + (4 + 2) * marks) + 3 * 2 * marks + 1);
    let refused = 2 * 2 * (2 * (13 + 12) + 1) + 2 * 2 * (1 + 12);
    held(rows, again + marked + refused, "rows of forms");
}

#[test]
fn sections_read() {
    let rows = sections::sections_at_start_0(&Both)
        + sections::the_longest_pairs(&Both)
        + sections::keys_that_begin_one_another_differ(&Both)
        + sections::key_sections(&Both)
        + sections::find_gives_the_value_and_its_companion_the_part(&Both);
    held(rows, 62 + 7 + 7 + 15 + 9, "rows of sections");
}

#[test]
fn sections_written() {
    let rows = section_writes::section_writers(&Both)
        + section_writes::counts_and_lengths_of_16_bits(&Both);
    held(rows, 25 + 8, "rows of sections written");
}

#[test]
fn without_a_key() {
    let rows = no_key::sections(&Both)
        + no_key::every_cut(&Both)
        + no_key::contexts(&Both)
        + no_key::fronts(&Both)
        + no_key::listed(listing);
    let wanted = 14 * 2 * 2 + (47 + 77) * 21 + 12 * (6 + 4) * 21 + (7 * 21 + 4) + 6;
    held(rows, wanted, "rows without a key");
}

#[test]
fn written_without_a_key() {
    let rows = no_key::sections_written(&Both) + no_key::bodies_written(&Both);
    let wanted = 5 * 5 + 2 * 4 * (1 + 15 + 2 * 5) * 3;
    held(rows, wanted, "rows written without a key");
}

#[test]
fn headers_under_a_policy() {
    let rows = policies::whole(&Both)
        + policies::every_cut(&Both)
        + policies::every_suite(&Both)
        + policies::at_the_greatest_start(&Both);
    let wanted = NUMBERS * (2 * (4 + 2) + (58 + 85) * 4 + (9 + 2) * 2 * 4 + 5 * 4);
    held(rows, wanted, "rows of headers under a policy");
}

#[test]
fn faults_under_a_policy() {
    let rows = policy_faults::fronts(&Both) + policy_faults::behind(&Both);
    let wanted = NUMBERS * ((10 + 4) * 4 + (2 * 9 + 10 + 6) * 4);
    held(rows, wanted, "rows of faults under a policy");
}

#[test]
fn written_under_a_policy() {
    let rows = policy_writes::images(&Both)
        + policy_writes::faults(&Both)
        + policy_writes::neighbours(&Both);
    let first = 9 * (2 * 4 + (NUMBERS - 2) * 3);
    let second = 2 * ((NUMBERS - 1) * 4 + 3);
    let faults = NUMBERS * 2 * (15 + 3 + 5) * 3;
    let wanted = 4 * (first + second) + faults + 4 * 3 * 3;
    held(rows, wanted, "rows written under a policy");
}

/// The rows of other tests, where a policy changes nothing.
#[test]
fn as_without_a_policy() {
    let rows = under::rows_read(&Both);
    held(rows, under::ROWS_READ, "rows of readers under policies");
    let rows = under::rows_written(&Both);
    held(rows, under::ROWS_WRITTEN, "rows of writers under policies");
}

#[test]
fn authentication_records() {
    let rows = records::authentication_records(&Both);
    held(rows, 20, "rows of authentication records");
}

#[test]
fn frames_read() {
    let rows = frames::one_or_two_frames(&Both)
        + frames::cut_and_moved(&Both)
        + frames::tables_of_every_length(&Both)
        + frames::every_byte(&Both)
        + many_frames::many_frames(&Both);
    let wanted = 5 * (30 + 24) + 2 * 115 + 26 + 114 * 255 + (2 + 8 * 5);
    held(rows, wanted, "rows of frames");
}

#[test]
fn frames_of_four_gibibytes() {
    let rows = frame_sizes::frames_of_four_gibibytes(&Both);
    held(
        rows,
        8 + 1 + 6 + 2 + 1 + 5 + 4 + 1,
        "rows of frames of 4 GiB",
    );
}

#[test]
fn frames_written() {
    let rows =
        frame_writes::images(&Both) + frame_writes::refusals(&Both) + frame_writes::counts(&Both);
    let wanted = 6 * (12 + 1) + 3 * 47 + (6 + 13 * 3);
    held(rows, wanted, "rows of frames written");
}

#[test]
fn frames_written_from_four_gibibytes() {
    let rows = frame_write_sizes::of_four_gibibytes(&Both);
    let wanted = frame_write_sizes::ANSWERS;
    held(rows, wanted, "rows of frames written from 4 GiB");
}

#[test]
fn only_authenticated_pairs() {
    let rows = only_authenticated::one_section(&Both)
        + only_authenticated::empty_contexts_and_parts(&Both)
        + only_authenticated::the_section_is_refused_first(&Both)
        + only_authenticated::the_longest_image(&Both)
        + only_authenticated::the_message_as_the_text(&Both);
    let wanted = 36 + 9 + 20 * 5 * 2 + 5 + 7;
    held(rows, wanted, "rows of pairs only authenticated");
}

#[test]
fn messages_of_four_gibibytes() {
    let rows = sizes::messages_of_four_gibibytes(&Both);
    held(rows, 5 * 9 + 5 + 6, "rows of messages of 4 GiB");
}

#[test]
fn listed() {
    let rows = listings::header_h_is_listed(listing, reads::host_answer)
        + listings::refusals_are_listed(listing)
        + listings::the_listings_tables_have_limits(listing)
        // The limit is that of reading input; what a host is told has none.
        + listings::the_programs_input_has_a_limit(reference::listing, reads::host_answer);
    held(rows, 2 + 6 + 4 + 4, "rows of listings");
}
