//! Frames, by their number and length, against the separate implementation.

use super::lists::ROTATION;
use crate::answer::agreed;
use crate::table::Table;
use crate::{ours, theirs};
use generator::random::Random;
use std::hint::black_box;

/// How many frames, the final one included.
const COUNTS: [usize; 3] = [1, 1_000, 1_000_000];
/// The frame lengths.
const LENGTHS: [usize; 3] = [1, 64, 4_096];
/// All messages of a row take at most so much, but there is always one: a
/// million frames of 4,096 bytes take 4.1 GB.
const ROOM: usize = 1 << 30;

/// A row's messages are made when it is measured, and gone before the next.
pub fn rows(table: &mut Table) {
    for count in COUNTS {
        for length in LENGTHS {
            read(table, &what(count, length), count, length);
        }
    }
}

fn what(count: usize, length: usize) -> String {
    let frames = match count {
        1 => "1 frame",
        1_000 => "1,000 frames",
        _ => "1,000,000 frames",
    };
    let bytes = match length {
        1 => "1 byte",
        64 => "64 bytes",
        _ => "4,096 bytes",
    };
    format!("frames read, {frames} of {bytes}")
}

/// Frames of a length, the final one of any length up to it.
fn message(random: &mut Random, count: usize, length: usize) -> Vec<u8> {
    let mut message = Vec::with_capacity(count * (32 + length) + 8);
    let last = random.between(0, length as u64) as usize;
    let mut frame = random.bytes(4 + 12 + length + 16);
    for number in 1..count as u32 {
        frame[..4].copy_from_slice(&number.to_be_bytes());
        message.extend_from_slice(&frame);
    }
    message.extend([0xFF; 4]);
    message.extend((count as u32).to_be_bytes());
    message.extend(random.bytes(12));
    message.extend((last as u32).to_be_bytes());
    message.extend(random.bytes(last + 16));
    message
}

/// As many messages as there is room for, up to the rotation.
fn messages(count: usize, length: usize) -> Vec<Vec<u8>> {
    let mut random = Random::new(14);
    let one = count * (32 + length) + 8;
    let copies = match count {
        1 => 128,
        _ => (ROOM / one).clamp(1, ROTATION),
    };
    let message = |_| message(&mut random, count, length);
    (0..copies).map(message).collect()
}

fn read(table: &mut Table, what: &str, count: usize, length: usize) {
    let messages = messages(count, length);
    let (mut our_table, mut their_table) = (vec![0; 6 * count], vec![0; 6 * count]);
    let message = |call: usize| &black_box(&messages[..])[call % messages.len()];
    let length = length as u32;
    let times = agreed(
        messages.len(),
        None,
        |call| ours::read_frames(message(call), length, black_box(&mut our_table)),
        |call| theirs::read_frames(message(call), length, black_box(&mut their_table)),
    );
    assert!(our_table == their_table);
    table.row(what, "reference", times);
}
