//! Bodies under a policy, read, measured and written, one row each.

mod common;

use common::{codec::Reference, report_rows};
use generator::rows::{policies, policies::NUMBERS, policy_faults, policy_writes, under};

/// Four readers take a version; of whole headers two more are asked, those of
/// the other version.
#[test]
fn sound_headers() {
    let rows = policies::whole(&Reference);
    report_rows("headers under a policy", rows, NUMBERS * 2 * (4 + 2));
    let rows = policies::every_cut(&Reference);
    let wanted = NUMBERS * (58 + 85) * 4;
    report_rows("headers under a policy, cut", rows, wanted);
    let rows = policies::every_suite(&Reference);
    let wanted = NUMBERS * (9 + 2) * 2 * 4;
    report_rows("openings of every suite under a policy", rows, wanted);
    let rows = policies::at_the_greatest_start(&Reference);
    let wanted = NUMBERS * 5 * 4;
    report_rows("headers under a policy at 4 GiB", rows, wanted);
}

#[test]
fn faulty_headers() {
    let rows = policy_faults::fronts(&Reference);
    let wanted = NUMBERS * (10 + 4) * 4;
    report_rows("faults before a policy", rows, wanted);
    let rows = policy_faults::behind(&Reference);
    let wanted = NUMBERS * (2 * 9 + 10 + 6) * 4;
    report_rows("faults behind a policy", rows, wanted);
}

#[test]
fn written() {
    // Of the numbers, 2 write version 1 and all but one version 2. What is
    // written gives four answers, what is forbidden three.
    let rows = policy_writes::images(&Reference);
    let first = 9 * (2 * 4 + (NUMBERS - 2) * 3);
    let second = 2 * ((NUMBERS - 1) * 4 + 3);
    report_rows("bodies written under a policy", rows, 4 * (first + second));
    let rows = policy_writes::faults(&Reference);
    let wanted = NUMBERS * 2 * (15 + 3 + 5) * 3;
    report_rows("faults written under a policy", rows, wanted);
    let rows = policy_writes::neighbours(&Reference);
    report_rows("neighbours of a policy", rows, 4 * 3 * 3);
}

/// The rows of other tests, where a policy changes nothing.
#[test]
fn as_without_a_policy() {
    let rows = under::rows_read(&Reference);
    report_rows("rows read under policies", rows, under::ROWS_READ);
    let rows = under::rows_written(&Reference);
    report_rows("rows written under policies", rows, under::ROWS_WRITTEN);
}
