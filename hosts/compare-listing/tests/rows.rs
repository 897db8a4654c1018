//! The rows of listings that are written by hand, by the program. What a host
//! is told is the separate implementation's here; ours is compared with it
//! beside the other operations.

use compare_listing::{compared, program};
use generator::rows::{listings, no_key};
use reference::host_answer;

#[test]
fn hand_written_rows() {
    let rows = listings::header_h_is_listed(program, host_answer)
        + listings::refusals_are_listed(program)
        + listings::the_listings_tables_have_limits(program)
        + listings::the_programs_input_has_a_limit(program, host_answer)
        + no_key::listed(program);
    assert_eq!(rows, 2 + 6 + 4 + 4 + 6);
    compared(rows, "rows of listings by the program");
}
