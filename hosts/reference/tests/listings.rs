//! The listing, byte for byte, and what a host is told.

mod common;

use common::{report, report_rows};
use generator::fields::fields;
use generator::lines::listing_to;
use generator::random::Random;
use generator::rows::listings;
use reference::{host_answer, listing};

#[test]
fn header_h_is_listed() {
    let rows = listings::header_h_is_listed(listing, host_answer);
    report_rows("header H listed", rows, 2);
}

#[test]
fn refusals_are_listed() {
    let rows = listings::refusals_are_listed(listing);
    report_rows("refusals listed", rows, 6);
}

#[test]
fn generated_headers_are_listed() {
    const SEEDS: u64 = 50_000;
    for seed in 0..SEEDS {
        let mut random = Random::new(seed);
        let fields = fields(&mut random);
        let mut message = fields.image().bytes;
        let tail = message.len();
        let behind = random.length(30);
        message.extend(random.bytes(behind));
        let wanted = listing_to(&fields, tail).into_bytes();
        assert_eq!(listing(&message), wanted, "seed {seed}");
        assert_eq!(host_answer(&message, 0), (0, tail as u64), "seed {seed}");
    }
    report("generated headers listed", SEEDS);
}

#[test]
fn the_listings_tables_and_input_have_limits() {
    let rows = listings::the_listings_tables_have_limits(listing)
        + listings::the_programs_input_has_a_limit(listing, host_answer);
    report_rows("limits of the listing", rows, 8);
}
