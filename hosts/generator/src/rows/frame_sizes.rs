//! Frames of messages at the greatest length, and above it.

use super::{Codec, Refused};
use crate::large::zeros;

const GREATEST: usize = u32::MAX as usize;
const MARK: u32 = u32::MAX;

/// The length of the message, the start, the frame length, and the answer: the
/// table of all frames and the tail.
type Row<'a> = (usize, u64, u32, Result<(&'a [u32], u64), Refused>);

/// Numbers stored at places of a message that is otherwise all 0, and what its
/// fronts are answered.
type Rows<'a> = (&'a [(usize, u32)], &'a [Row<'a>]);

/// A regular frame and a final one, each of nearly 2 GiB, which end at the
/// greatest length.
const HALF: u32 = 2_147_483_000;
const HALVES: [(usize, u32); 4] = [
    (1_223, 1),
    (2_147_484_255, MARK),
    (2_147_484_259, 2),
    (2_147_484_275, HALF),
];
#[rustfmt::skip]
const HALVES_TABLE: &[u32] = &[
    1_227, 12, 1_239, HALF, 2_147_484_239, 16,
    2_147_484_263, 12, 2_147_484_279, HALF, 4_294_967_279, 16,
];
const OF_HALVES: Rows = (
    &HALVES,
    &[
        (GREATEST, 1_223, HALF, Ok((HALVES_TABLE, 4_294_967_295))),
        (GREATEST + 1, 1_223, HALF, Err((1, 0))),
        (GREATEST - 1, 1_223, HALF, Err((2, 4_294_967_295))),
        (GREATEST - 16, 1_223, HALF, Err((2, 4_294_967_295))),
        (GREATEST - 17, 1_223, HALF, Err((2, 4_294_967_279))),
        (2_147_484_255, 1_223, HALF, Err((2, 2_147_484_259))),
        (2_147_484_254, 1_223, HALF, Err((2, 2_147_484_255))),
        // The next number is read a byte early: 00 FF FF FF.
        (GREATEST, 1_223, HALF - 1, Err((34, 0))),
    ],
);
const LONGER_HALF: Rows = (
    &[HALVES[0], HALVES[1], HALVES[2], (2_147_484_275, HALF + 1)],
    &[(GREATEST, 1_223, HALF, Err((35, 0)))],
);

/// A final frame that fills the message.
const WHOLE: u32 = 4_294_967_255;
const WHOLE_TABLE: &[u32] = &[8, 12, 24, WHOLE, 4_294_967_279, 16];
const OF_ALL: Rows = (
    &[(0, MARK), (4, 1), (20, WHOLE)],
    &[
        (GREATEST, 0, u32::MAX, Ok((WHOLE_TABLE, 4_294_967_295))),
        (GREATEST, 0, WHOLE, Ok((WHOLE_TABLE, 4_294_967_295))),
        (GREATEST, 0, WHOLE - 1, Err((35, 0))),
        (GREATEST + 1, 0, u32::MAX, Err((1, 0))),
        (GREATEST - 1, 0, u32::MAX, Err((2, 4_294_967_295))),
        (GREATEST - 17, 0, u32::MAX, Err((2, 4_294_967_279))),
    ],
);
const ONE_MORE: Rows = (
    &[(0, MARK), (4, 1), (20, WHOLE + 1)],
    &[
        (GREATEST, 0, u32::MAX, Err((2, 4_294_967_296))),
        (GREATEST, 0, WHOLE, Err((35, 0))),
    ],
);
const MOST: Rows = (
    &[(0, MARK), (4, 1), (20, u32::MAX)],
    &[(GREATEST, 0, u32::MAX, Err((2, 4_294_967_319)))],
);

/// A regular frame of which the content, the tag or what follows is not there.
const REGULAR: Rows = (
    &[(0, 1)],
    &[
        (GREATEST, 0, u32::MAX, Err((2, 4_294_967_311))),
        (GREATEST, 0, 4_294_967_280, Err((2, 4_294_967_296))),
        (GREATEST, 0, 4_294_967_279, Err((2, 4_294_967_311))),
        (GREATEST, 0, 4_294_967_264, Err((2, 4_294_967_296))),
        (GREATEST, 0, 4_294_967_263, Err((2, 4_294_967_299))),
    ],
);

/// Frames that begin where the message ends, or a number before that.
const AT_THE_END: Rows = (
    &[(GREATEST - 4, 1)],
    &[
        (GREATEST, 4_294_967_291, 1, Err((2, 4_294_967_307))),
        (GREATEST, 4_294_967_292, 1, Err((2, 4_294_967_296))),
        (GREATEST, 4_294_967_295, 1, Err((2, 4_294_967_299))),
        (GREATEST, 4_294_967_296, 1, Err((1, 0))),
    ],
);
const MARK_AT_THE_END: Rows = (
    &[(GREATEST - 4, MARK)],
    &[(GREATEST, 4_294_967_291, 1, Err((2, 4_294_967_299)))],
);

/// Stores the numbers, holds the rows, and puts 0 there again.
fn held(codec: &impl Codec, memory: &mut [u8], (stored, rows): Rows) -> u64 {
    for &(at, number) in stored {
        memory[at..at + 4].copy_from_slice(&number.to_be_bytes());
    }
    for &(length, start, frame_length, wanted) in rows {
        let mut table = [7; 14];
        let answer = codec.read_frames(&memory[..length], start, frame_length, &mut table);
        let (filled, _) = wanted.unwrap_or_default();
        let wanted = wanted.map(|(filled, tail)| (filled.len() as u32 / 6, tail));
        assert_eq!(answer, wanted, "{length}, {start}, {frame_length}");
        let (front, rest) = table.split_at(filled.len());
        assert_eq!((front, rest), (filled, &[7; 14][filled.len()..]));
    }
    for &(at, _) in stored {
        memory[at..at + 4].fill(0);
    }
    rows.len() as u64
}

pub fn frames_of_four_gibibytes(codec: &impl Codec) -> u64 {
    let mut memory = zeros(GREATEST + 1);
    [
        OF_HALVES,
        LONGER_HALF,
        OF_ALL,
        ONE_MORE,
        MOST,
        REGULAR,
        AT_THE_END,
        MARK_AT_THE_END,
    ]
    .into_iter()
    .map(|rows| held(codec, &mut memory, rows))
    .sum()
}
