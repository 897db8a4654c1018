//! Drafts on generated requests that are reissued, and measured before.

use crate::common::codec::reissue;
use crate::common::plain_reissuing as plain;
use crate::common::refusal;
use crate::reads::{as_expected, number};
use crate::writes::output_is;
use generator::reissue_cases::reissue_case;
use generator::Expected;
use reference::*;
use report::Coverage;

/// The body is the one that the request was made of, and the second opinion's;
/// what is told before is its length, or the refusal, but for 28.
pub fn reissues(coverage: &mut Coverage) -> u64 {
    const SEEDS: u64 = 60_000;
    for seed in 0..SEEDS {
        let case = reissue_case(seed);
        let (message, start, added) = (&case.message, case.start, reissue(case.added()));
        let plain = plain::reissue(message, start, case.added());
        let told = reissued_header_body_len(message, start, &added);
        coverage.count("reissued length", number(&told));
        let length = plain.as_ref().map(|image| image.len() as u64);
        assert_eq!(told.map_err(refusal), length.map_err(|no| *no));

        let mut out = case.out.clone();
        let answer = reissue_header_body(message, start, &added, &mut out);
        coverage.count("reissue body", number(&answer));
        as_expected(seed, &answer, case.expected);
        if case.expected == Expected::Accepted {
            let image = case.fields.image().bytes;
            assert!(out.starts_with(&image), "seed {seed}");
        }
        output_is(seed, answer, (&case.out, &out), plain);
    }
    2 * SEEDS
}
