//! The length of frames before they are written. (All frames that another test
//! writes are measured as well, and tried with outputs about their length.)

use compare_header::expected::as_expected;
use compare_header::lengths::{frames_len, Tried};
use compare_header::numbers::number;
use compare_header::scale::seeds;
use compare_header::{compared, Coverage};
use generator::frame_write_cases::frame_write_case;
use generator::Expected;

/// It is that of the image, built by concatenation alone, or the refusal that
/// the request's faults decide; 28 is none of those.
#[test]
fn of_generated_requests() {
    let mut coverage = Coverage::default();
    let mut count = 0;
    for seed in seeds(200_000) {
        // Other requests than those that are written elsewhere.
        let case = frame_write_case(!seed);
        let length = frames_len(case.frame_length, &case.text, &case.table);
        coverage.count("frames length", number(&length));
        match case.expected {
            Expected::Accepted | Expected::Refused(28, _) => {
                assert_eq!(length, Ok(case.image.len()), "seed {seed}");
            }
            refused => as_expected(seed, &length, refused),
        }
        count += 1;
    }
    coverage.print();
    coverage.assert_complete(["frames length"]);
    compared(count, "lengths of frames");
}

/// Ours with outputs of every length up to a few bytes more than the frames',
/// or than they would be without their faults: each answer is foretold, and
/// what isn't written keeps.
#[test]
fn whatever_the_output() {
    let mut tried = Tried::default();
    for seed in seeds(3_000) {
        let case = frame_write_case(seed ^ 0x1E46_0000);
        let (frame_length, text, table) = (case.frame_length, &case.text, &case.table);
        let length = frames_len(frame_length, text, table);
        tried.every_output(seed, (length, &case.image), |out| {
            bafirolen::write_frames(frame_length, text, table, out)
        });
    }
    compared(
        tried.both_came_about(),
        "writes of measured frames into every output",
    );
}
