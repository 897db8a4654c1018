//! Generated requests of every operation, intact and damaged, held against
//! what their damage decides and against the slow second opinion. A table of
//! operations and refusals shows that each refusal has come about.

mod bodies;
#[path = "../common/mod.rs"]
mod common;
mod frames;
mod mending;
mod reads;
mod reissuing;
mod writes;

use report::{Coverage, LISTED};

#[test]
fn every_operation_on_generated_requests() {
    let mut coverage = Coverage::default();
    let compared = reads::sections(&mut coverage)
        + reads::keys(&mut coverage)
        + bodies::without_a_policy(&mut coverage)
        + bodies::under_a_policy(&mut coverage)
        + reads::auth(&mut coverage)
        + frames::frames(&mut coverage)
        + writes::sections(&mut coverage)
        + writes::keys(&mut coverage)
        + writes::bodies(&mut coverage)
        + writes::bodies_under_a_policy(&mut coverage)
        + writes::auth(&mut coverage)
        + writes::frames(&mut coverage)
        + writes::only_authenticated(&mut coverage)
        + writes::listings(&mut coverage)
        + mending::drops(&mut coverage)
        + mending::adds(&mut coverage)
        + mending::too_long(&mut coverage)
        + reissuing::reissues(&mut coverage);
    coverage.print();
    coverage.assert_complete(LISTED.map(|(operation, _)| operation));
    common::report("generated requests", compared);
}
