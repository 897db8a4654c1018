//! The rows that are written by hand, among them document 01's header H and its
//! marked cases, with each message that is read fed in pieces.

use compare_header::compared;
use compare_header::fetched::Fetching;
use generator::rows::policies::NUMBERS;
use generator::rows::{frames, headers, no_key, only_authenticated, policies, policy_faults};
use generator::rows::{records, reissuing, reissuing_refusals, section_ends, sections};

/// No row is lost, and these numbers came about before a message was there
/// whole.
fn held(codec: Fetching, (rows, wanted): (u64, u64), what: &str, early: &[u32]) {
    assert_eq!(rows, wanted, "{what}");
    let seen = codec.seen();
    seen.assert_early(early);
    compared(seen.messages(), &format!("messages of {what}, in pieces"));
    seen.report(what);
}

#[test]
fn of_headers() {
    let codec = Fetching::new(1_191);
    let rows = headers::header_h_is_read_whole(&codec)
        + headers::header_h_cut_and_moved(&codec)
        + headers::an_empty_context_has_two_forms(&codec)
        + headers::each_field_is_tested(&codec)
        + headers::tables_are_tested_last(&codec);
    held(
        codec,
        (rows, 5 + 64 + 8 + 42 + 5),
        "rows of headers",
        &[1, 2, 3, 4, 5, 6, 7, 17, 18, 19, 21, 38],
    );
}

#[test]
fn of_sections() {
    let codec = Fetching::new(1_192);
    let rows = sections::sections_at_start_0(&codec)
        + sections::the_longest_pairs(&codec)
        + sections::keys_that_begin_one_another_differ(&codec)
        + sections::key_sections(&codec)
        + sections::find_gives_the_value_and_its_companion_the_part(&codec)
        + section_ends::of_sections(&codec)
        + only_authenticated::one_section(&codec)
        + only_authenticated::empty_contexts_and_parts(&codec)
        + only_authenticated::the_section_is_refused_first(&codec)
        + only_authenticated::the_message_as_the_text(&codec);
    let wanted = (62 + 7 + 7 + 15 + 9) + 3_628 + (36 + 9 + 20 * 5 * 2 + 7);
    held(
        codec,
        (rows, wanted),
        "rows of sections",
        &[0, 1, 2, 8, 10, 14, 15, 16, 28, 29, 31, 32],
    );
}

#[test]
fn of_sections_in_bodies() {
    let codec = Fetching::new(1_193);
    let rows = section_ends::of_bodies(&codec) + section_ends::of_headers(&codec);
    let wanted = 302 * 2 * 2 * 5 + 16 * 5;
    held(
        codec,
        (rows, wanted),
        "rows of sections in bodies",
        &[2, 8, 14, 32],
    );
}

#[test]
fn without_a_key() {
    let codec = Fetching::new(1_194);
    let rows = no_key::sections(&codec) + no_key::contexts(&codec) + no_key::fronts(&codec);
    let wanted = 14 * 2 * 2 + 12 * (6 + 4) * 21 + (7 * 21 + 4);
    held(
        codec,
        (rows, wanted),
        "rows without a key",
        &[2, 3, 4, 5, 6, 7, 8, 9, 10, 11, 12, 14, 21, 32, 38],
    );
}

#[test]
fn under_a_policy() {
    let codec = Fetching::new(1_195);
    let rows = policies::whole(&codec)
        + policies::every_suite(&codec)
        + policy_faults::fronts(&codec)
        + policy_faults::behind(&codec);
    let sound = 2 * (4 + 2) + (9 + 2) * 2 * 4;
    let faults = (10 + 4) * 4 + (2 * 9 + 10 + 6) * 4;
    held(
        codec,
        (rows, NUMBERS * (sound + faults)),
        "rows under a policy",
        &[
            1, 2, 3, 4, 5, 6, 7, 8, 9, 10, 11, 12, 14, 15, 16, 17, 18, 19, 21, 32, 38, 39,
        ],
    );
}

#[test]
fn of_records_and_frames() {
    let codec = Fetching::new(1_196);
    let rows = records::authentication_records(&codec)
        + frames::one_or_two_frames(&codec)
        + frames::cut_and_moved(&codec)
        + frames::tables_of_every_length(&codec);
    let wanted = 20 + 5 * (30 + 24) + 2 * 115 + 26;
    held(
        codec,
        (rows, wanted),
        "rows of records and frames",
        &[0, 1, 2, 20, 23, 34, 35],
    );
}

#[test]
fn of_drafts_to_reissue() {
    let codec = Fetching::new(1_197);
    let rows = reissuing::in_full(&codec)
        + reissuing::suites(&codec)
        + reissuing_refusals::every_cut(&codec)
        + reissuing_refusals::fields(&codec)
        + reissuing_refusals::contexts(&codec)
        + reissuing_refusals::starts(&codec);
    let accepted = (3 + 9 * 2) * reissuing::ACCEPTED;
    let refused = (2 * 50 + 16 + 9 + 9) * reissuing_refusals::ANSWERS;
    held(
        codec,
        (rows, accepted + refused),
        "rows of drafts to reissue",
        &[
            1, 2, 3, 4, 5, 6, 7, 8, 9, 10, 11, 12, 14, 16, 17, 18, 19, 20, 32, 38,
        ],
    );
}
