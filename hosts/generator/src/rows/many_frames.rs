//! More frames than two bytes can number.

use super::frames::ask;
use super::Codec;

/// So many frames of one byte each, the final one included.
const MANY: u32 = 66_000;

fn many() -> Vec<u8> {
    let mut message = Vec::new();
    for number in 1..MANY {
        message.extend(number.to_be_bytes());
        message.extend([number as u8; 12 + 1 + 16]);
    }
    message.extend([0xFF; 4]);
    message.extend(MANY.to_be_bytes());
    message.extend([0; 12]);
    message.extend([0, 0, 0, 1]);
    message.extend([0; 1 + 16]);
    message
}

/// Numbers that take two bytes and three: all are right, and then one isn't,
/// where another of its bytes changes.
pub fn many_frames(codec: &impl Codec) -> u64 {
    let mut message = many();
    let last = 33 * (MANY - 1);
    let tail = u64::from(last) + 41;
    assert_eq!(message.len() as u64, tail);
    let mut table = Vec::new();
    for at in (0..last).step_by(33) {
        table.extend([at + 4, 12, at + 16, 1, at + 17, 16]);
    }
    table.extend([last + 8, 12, last + 24, 1, last + 25, 16]);
    let room = 6 * MANY as usize;
    let answer = ask(codec, &message, (0, 1), room);
    assert!(answer == Ok((table, tail)), "{MANY} frames");
    assert_eq!(ask(codec, &message, (0, 1), room - 1), Err((23, 0)));
    let mut compared = 2;
    for number in [2, 255, 256, 257, 65_535, 65_536, 65_537, MANY - 1] {
        let at = 33 * (number as usize - 1);
        for wrong in [number - 1, number + 1, number ^ 0x100, number ^ 0x1_0000, 0] {
            message[at..at + 4].copy_from_slice(&wrong.to_be_bytes());
            assert_eq!(ask(codec, &message, (0, 1), room), Err((34, 0)), "{wrong}");
            compared += 1;
        }
        message[at..at + 4].copy_from_slice(&number.to_be_bytes());
    }
    compared
}
