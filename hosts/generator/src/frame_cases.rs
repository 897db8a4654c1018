//! Requests to read frames.

use crate::frame_faults::{build, KINDS};
use crate::frame_runs::Built;
use crate::frames::Frame;
use crate::random::Random;
use crate::surroundings::{cut, start_past, start_too_large, table, whole, Placed};
use crate::Expected;

/// A request. Accepted, it gives `frames` and the tail `end`.
#[derive(Clone, Debug)]
pub struct FrameCase {
    pub message: Vec<u8>,
    pub start: u64,
    pub frame_length: u32,
    pub table: Vec<u32>,
    pub frames: Vec<Frame>,
    pub end: u64,
    pub expected: Expected,
}

/// What the frames decide where they stand, unless it is acceptance.
fn refused(built: &Built, placed: &Placed) -> Option<Expected> {
    if placed.start > u64::from(u32::MAX) {
        return Some(Expected::Refused(1, 0));
    }
    if built.frame_length == 0 {
        return Some(Expected::Refused(20, 0));
    }
    let length = placed.message.len() as u64;
    match (built.image.wanted(placed.start, length), built.fault) {
        _ if built.open => Some(Expected::Open),
        // What is wanted stands behind what is refused.
        (Some(wanted), Some((number, tested))) if wanted > placed.start + tested => {
            Some(Expected::Refused(number, 0))
        }
        (Some(wanted), _) => Some(Expected::Refused(2, wanted)),
        (None, Some((number, _))) => Some(Expected::Refused(number, 0)),
        (None, None) => None,
    }
}

/// The request of a seed.
pub fn frame_case(seed: u64) -> FrameCase {
    let mut random = Random::new(seed);
    let random = &mut random;
    let kind = random.pick(&KINDS);
    let built = build(random, kind);
    let mut placed = match random.below(12) {
        0..=3 if !built.open => cut(random, &built.image),
        4 => start_past(random, &built.image, 4),
        5 => start_too_large(random, &built.image),
        _ => whole(random, &built.image, 0),
    };
    if built.ends {
        placed.message.truncate(placed.end as usize);
    }
    let (table, fits) = table(random, 6 * built.frames.len(), true);
    let expected = match refused(&built, &placed) {
        Some(refused) => refused,
        None if !fits => Expected::Refused(23, 0),
        None => Expected::Accepted,
    };
    FrameCase {
        message: placed.message,
        start: placed.start,
        frame_length: built.frame_length,
        table,
        frames: built.frames,
        end: placed.end,
        expected,
    }
}
