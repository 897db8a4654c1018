//! Frames on generated requests.

use crate::common::plain::{self, Buffer};
use crate::common::{parts, refusal};
use crate::reads::{as_expected, number, section, within};
use generator::frame_cases::frame_case;
use generator::frames;
use generator::Expected;
use reference::read_frames;
use report::Coverage;

pub fn frames(coverage: &mut Coverage) -> u64 {
    const SEEDS: u64 = 250_000;
    for seed in 0..SEEDS {
        let case = frame_case(seed);
        let mut table = case.table.clone();
        let answer = read_frames(&case.message, case.start, case.frame_length, &mut table);
        coverage.count("read frames", number(&answer));
        as_expected(seed, &answer, case.expected);

        let plain = Buffer::new(&case.message, case.start).and_then(|mut buffer| {
            let parts = plain::frames(&mut buffer, case.frame_length.into())?;
            within(parts, &buffer, &case.table, 23)
        });
        let read = answer.map(|read| (read.frames, read.tail)).map_err(refusal);
        let filled = section(seed, [&case.table, &table], 6, read, plain);
        if case.expected == Expected::Accepted {
            assert_eq!(read.map(|(_, tail)| tail), Ok(case.end), "seed {seed}");
            let got = parts(&case.message, &table[..filled]);
            assert!(frames::parts(&case.frames).eq(got), "seed {seed}");
        }
    }
    SEEDS
}
