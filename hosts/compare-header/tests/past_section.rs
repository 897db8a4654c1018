//! Parts of a context section that end a byte before its end, at it and a byte
//! past it, by every operation that reads one; and cuts of messages in which a
//! part goes past its section: once that is there, no more bytes are asked for.

use bafirolen::{Mode, Refusal, Remedy};
use compare_header::both::{listing, Both};
use compare_header::numbers::answered;
use compare_header::{compared, reads};
use generator::rows::section_ends as rows;
use generator::section_ends::sections;

#[test]
fn of_sections() {
    let count = rows::of_sections(&Both);
    assert_eq!(count, 3_628);
    compared(count, "reads of parts about their section's end");
}

#[test]
fn of_bodies() {
    let count = rows::of_bodies(&Both) + rows::of_headers(&Both);
    assert_eq!(count, 302 * 2 * 2 * 5 + 16 * 5);
    compared(
        count,
        "reads of bodies with parts about their section's end",
    );
}

#[test]
fn listed() {
    let count = rows::listed(listing);
    assert_eq!(count, 16);
    compared(count, "listings of parts past their section's end");
}

/// Up to the section's end the whole section is wanted, and nothing beyond it;
/// from there on the answer is 32, which no bytes mend.
#[test]
fn no_byte_behind_the_section_is_wanted() {
    let mut count = 0;
    for ended in sections().iter().filter(|ended| ended.wanted == 32) {
        for cut in 0..=ended.bytes.len() {
            let message = &ended.bytes[..cut];
            let wanted = match cut {
                0 | 1 => (2, 2),
                _ if cut < ended.end => (2, ended.end as u64),
                _ => (32, 0),
            };
            for mode in [Mode::Tolerant, Mode::Strict] {
                let (answer, _) = reads::read_aad_section(message, 0, mode, &[7; 12]);
                assert_eq!(answered(&answer), wanted, "{cut} of {:?}", ended.bytes);
                count += 1;
            }
            let found = reads::find_value(message, 0, b"a");
            assert_eq!(answered(&found), wanted, "{cut} of {:?}", ended.bytes);
            count += 1;
        }
    }
    assert_eq!(Refusal::PastSection.remedy(), Remedy::Reject);
    compared(count, "cuts of sections with a part past their end");
}
