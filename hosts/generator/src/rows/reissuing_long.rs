//! Drafts in messages of the greatest length, and of one more; and a draft that
//! is nearly as long.

use super::mending_long::{fill, GREATEST};
use super::reissuing::{added, becomes, refused, ACCEPTED, DATA, ID, REFUSED};
use super::Reissue;
use crate::headers::{header_h_with, hex};
use crate::large::zeros;

/// How many answers these rows give.
pub const ANSWERS: u64 = 2 * ACCEPTED + 4 * REFUSED + 4 * (2 + 2);

pub fn of_four_gibibytes(codec: &impl Reissue) -> u64 {
    let mut memory = zeros(GREATEST + 1);
    short(codec, &mut memory) + long(codec, &mut memory)
}

/// The draft of header H in the old form, at the message's front and at its end.
/// One byte above the greatest length nothing is read, whatever the start.
fn short(codec: &impl Reissue, memory: &mut [u8]) -> u64 {
    let draft = header_h_with("00 02 00 00");
    let image = [
        &hex("02 05 78")[..],
        &ID,
        &hex("00 00 00 01 00 02 70 31 00 01 61 00 03 AA BB CC 02 00 00 10 00"),
        &DATA,
    ]
    .concat();
    let (new, length) = (added(0x0578), draft.len());
    let at = GREATEST - length;
    let mut answers = 0;
    for start in [0, at] {
        memory[start..start + length].copy_from_slice(&draft);
        let message = (&memory[..GREATEST], start as u64);
        answers += becomes(codec, message, new, &image);
        answers += refused(codec, (memory, start as u64), new, (1, 0));
    }
    let end = GREATEST as u64;
    let cut = &memory[..GREATEST - 1];
    answers += refused(codec, (cut, at as u64), new, (2, end));
    answers += refused(codec, (&memory[..at], at as u64), new, (2, at as u64 + 1));
    // For what comes next.
    memory[..length].fill(0);
    memory[at..].fill(0);
    answers
}

/// Drafts whose bodies are as long as a message can be, a byte longer, and
/// longer than 32 bits count; the last is as long as a message can be. Of the
/// body only the length is told: no output here holds it.
fn long(codec: &impl Reissue, memory: &mut [u8]) -> u64 {
    let mut answers = 0;
    for tail in [GREATEST - 42, GREATEST - 41, GREATEST - 7, GREATEST] {
        fill(memory, tail);
        let new = added(0x0478);
        let (whole, cut) = (&memory[..tail], &memory[..tail - 1]);
        let (length, wanted) = (tail as u64 + 42, (2, tail as u64));
        assert_eq!(codec.reissued_len(whole, 0, new), Ok(length));
        assert_eq!(codec.reissued_len(cut, 0, new), Err(wanted));
        let mut out = [0xEE; 4_096];
        assert_eq!(codec.reissue(whole, 0, new, &mut out), Err((28, 0)));
        assert_eq!(codec.reissue(cut, 0, new, &mut out), Err(wanted));
        assert!(out.iter().all(|&byte| byte == 0xEE));
        // For the next one, whose keys begin where this one's do.
        memory[tail - 10..tail].fill(0);
        answers += 2 + 2;
    }
    answers
}
