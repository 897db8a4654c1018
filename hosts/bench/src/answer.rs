//! Answers as one number, by which two functions are held together before
//! they are timed.

use crate::measure::{versus, Times};

const REFUSED: u64 = 1 << 63;

/// A tail, length or start; that of a refusal is its number, and a bit that
/// none of the others has.
#[inline]
pub fn told(answer: Result<u64, u32>) -> u64 {
    answer.unwrap_or_else(|number| REFUSED | u64::from(number))
}

/// Times two functions once they have given the same answer to each of the
/// `count` requests: accepted, or refused with this number.
pub fn agreed(
    count: usize,
    refusal: Option<u32>,
    mut ours: impl FnMut(usize) -> u64,
    mut theirs: impl FnMut(usize) -> u64,
) -> Times {
    for call in 0..count {
        let (our_answer, their_answer) = (ours(call), theirs(call));
        assert_eq!(our_answer, their_answer, "request {call}");
        match refusal {
            Some(number) => assert_eq!(our_answer, told(Err(number)), "request {call}"),
            None => assert!(our_answer < REFUSED, "request {call} is refused"),
        }
    }
    versus(ours, theirs)
}
