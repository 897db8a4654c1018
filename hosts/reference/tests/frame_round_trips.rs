//! Frames that are written are read again, and frames that are read are
//! written again.

mod common;

use common::{parts, report};
use generator::frame_cases::frame_case;
use generator::frame_write_cases::frame_write_case;
use generator::Expected;
use reference::*;

/// What is written gives the same parts, from any start.
#[test]
fn written_then_read() {
    const SEEDS: u64 = 200_000;
    let mut compared = 0;
    for seed in 2_000_000..2_000_000 + SEEDS {
        let case = frame_write_case(seed);
        if case.expected != Expected::Accepted {
            continue;
        }
        let start = seed as usize % 5;
        let mut message = vec![0xEE; start + case.out.len()];
        let answer = write_frames(
            case.frame_length,
            &case.text,
            &case.table,
            &mut message[start..],
        );
        let end = (start + case.image.len()) as u64;
        assert_eq!(answer, Ok(case.image.len() as u64), "seed {seed}");
        let mut table = vec![7; case.table.len()];
        let read = read_frames(&message, start as u64, case.frame_length, &mut table);
        let frames = case.table.len() as u32 / 6;
        assert_eq!(read, Ok(FramesRead { frames, tail: end }), "seed {seed}");
        let wanted = parts(&case.text, &case.table);
        assert!(parts(&message, &table) == wanted, "seed {seed}");
        compared += 1;
    }
    assert!(compared >= SEEDS / 4, "{compared}");
    report("frames written, then read", compared);
}

/// Whatever is accepted, damaged or not, is written again to the bytes it was
/// read from, and measured before.
#[test]
fn read_then_written() {
    const SEEDS: u64 = 300_000;
    let mut compared = 0;
    for seed in 1_000_000..1_000_000 + SEEDS {
        let case = frame_case(seed);
        let (message, length) = (&case.message, case.frame_length);
        let mut table = vec![7; 6 * 310];
        let Ok(read) = read_frames(message, case.start, length, &mut table) else {
            continue;
        };
        let table = &table[..6 * read.frames as usize];
        let image = &message[case.start as usize..read.tail as usize];
        let taken = image.len() as u64;
        assert_eq!(frames_len(length, message, table), Ok(taken), "seed {seed}");
        let mut out = vec![0xEE; image.len() + 3];
        let answer = write_frames(length, message, table, &mut out);
        assert_eq!(answer, Ok(taken), "seed {seed}");
        assert!(out.starts_with(image) && out.ends_with(&[0xEE; 3]));
        compared += 1;
    }
    assert!(compared >= SEEDS / 8, "{compared}");
    report("frames read, then written", compared);
}
