//! Frames: cut, changed, read by other lengths and into tables of every
//! length; and more of them than any generated request has.

use bafirolen::{frame_table_len, Refusal, Remedy};
use compare_header::answers::Answers;
use compare_header::expected::parts_are;
use compare_header::numbers::number;
use compare_header::{compared, reads};
use generator::frames::{image, parts, run, Frame};
use generator::random::Random;

/// Runs of a length, of one frame to four, whose final content is empty,
/// full or between.
fn runs(random: &mut Random, frame_length: usize) -> Vec<Vec<Frame>> {
    let lasts = [0, frame_length / 2, frame_length];
    let shapes = (0..4).flat_map(|regular| lasts.map(|last| (regular, last)));
    shapes
        .map(|(regular, last)| run(random, frame_length, regular, last))
        .collect()
}

/// Every cut from every start, by the right frame length and by others.
#[test]
fn every_cut() {
    let mut random = Random::new(191);
    let mut count = 0;
    for frame_length in [1, 3] {
        let frames = run(&mut random, frame_length, 2, 1);
        let bytes = image(&frames).bytes;
        for end in 0..=bytes.len() {
            for start in 0..=bytes.len() as u64 + 1 {
                for asked in [0, 1, 2, 3, 4, u32::MAX] {
                    let _ = reads::read_frames(&bytes[..end], start, asked, &[7; 20]);
                    count += 1;
                }
            }
        }
    }
    compared(
        count,
        "reads of frames cut at every offset, from every start",
    );
}

/// What a shortage wants can help: a message that reaches there wants more, or
/// is answered otherwise.
#[test]
fn a_shortage_is_mended_by_what_it_wants() {
    let mut random = Random::new(192);
    let mut answers = Answers::default();
    let (mut accepted, mut short) = (0, 0);
    for frame_length in [1, 5] {
        for frames in runs(&mut random, frame_length) {
            let bytes = image(&frames).bytes;
            let table = vec![7; 6 * frames.len()];
            let mut length = 0;
            loop {
                let message = &bytes[..length];
                let (answer, _) = reads::read_frames(message, 0, frame_length as u32, &table);
                let Err(Refusal::Shortage { position }) = answer else {
                    answers.met(&answer, 0);
                    assert_eq!(length, bytes.len());
                    accepted += 1;
                    break;
                };
                assert!(position > length as u64 && position <= bytes.len() as u64);
                answers.short(&answer, position);
                length = position as usize;
                short += 1;
            }
        }
    }
    assert_eq!(accepted, 2 * 4 * 3);
    let wanted = [(0, accepted), (2, short)];
    answers.assert_are("frames that grow by what is wanted", &wanted);
}

/// Every byte replaced by every other, with bytes behind the frames and
/// without, by the right frame length and by a longer one.
#[test]
fn every_byte() {
    let mut random = Random::new(193);
    let mut message = image(&run(&mut random, 3, 2, 1)).bytes;
    let end = message.len();
    message.extend(random.bytes(60));
    let mut count = 0;
    for at in 0..end {
        let right = message[at];
        for byte in 0..=0xFF {
            message[at] = byte;
            for (end, asked) in [(end, 3), (end + 60, 3), (end, 4), (end + 60, 4)] {
                let _ = reads::read_frames(&message[..end], 0, asked, &[7; 18]);
                count += 1;
            }
        }
        message[at] = right;
    }
    compared(count, "frames with one byte replaced");
}

/// Every length up to two numbers more than is needed.
#[test]
fn every_table_length() {
    let mut random = Random::new(194);
    let mut answers = Answers::default();
    let (mut accepted, mut short) = (0, 0);
    for frame_length in [1, 2, 16, 64] {
        for frames in runs(&mut random, frame_length) {
            let bytes = image(&frames).bytes;
            let numbers = 6 * frames.len();
            for room in 0..=numbers + 2 {
                let table: Vec<u32> = (0..room as u32).map(|entry| !entry).collect();
                let (answer, table) = reads::read_frames(&bytes, 0, frame_length as u32, &table);
                answers.met(&answer, if room < numbers { 23 } else { 0 });
                if room >= numbers {
                    parts_are(0, &bytes, &table[..numbers], parts(&frames));
                }
            }
            short += numbers as u64;
            accepted += 3;
        }
    }
    let wanted = [(0, accepted), (23, short)];
    answers.assert_are("frames into tables of every length", &wanted);
}

/// Final contents of every stored length about the frame length, with all
/// bytes there and with none behind the length.
#[test]
fn every_final_length() {
    let mut random = Random::new(195);
    let mut answers = Answers::default();
    for frame_length in 1..=64u32 {
        for stored in 0..=frame_length + 8 {
            let mut frames = run(&mut random, frame_length as usize, 1, stored as usize);
            let whole = image(&frames).bytes;
            let wanted = if stored > frame_length { 35 } else { 0 };
            let (answer, _) = reads::read_frames(&whole, 0, frame_length, &[7; 12]);
            answers.met(&answer, wanted);
            frames[1].content.clear();
            frames[1].tag.clear();
            let cut = image(&frames).bytes;
            let (answer, _) = reads::read_frames(&cut, 0, frame_length, &[7; 12]);
            let length = cut.len() as u64 + u64::from(stored);
            match (wanted, stored) {
                (35, _) => answers.met(&answer, 35),
                // Content of no bytes is there, and the tag is wanted.
                (_, 0) => answers.short(&answer, length + 16),
                _ => answers.short(&answer, length),
            }
        }
    }
    // 1 + .. + 64 lengths from 1 on, and 64 of 0.
    let fit = 64 * 65 / 2 + 64;
    let wanted = [(0, fit), (2, fit), (35, 2 * 8 * 64)];
    answers.assert_are("final contents of every length", &wanted);
}

/// How many frames the message has, of one byte each.
const MANY: usize = 1_000_000;

/// A million frames; then with the last number off, the last byte cut, and a
/// table that is a number short.
#[test]
fn a_million_frames() {
    let mut random = Random::new(196);
    let frames = run(&mut random, 1, MANY - 1, 1);
    let mut bytes = image(&frames).bytes;
    let end = bytes.len();
    assert_eq!(end, 33 * (MANY - 1) + 41);
    let mut answers = Answers::default();
    let table = vec![7; frame_table_len(end, 1)];
    let (answer, after) = reads::read_frames(&bytes, 0, 1, &table);
    answers.met(&answer, 0);
    parts_are(0, &bytes, &after[..6 * MANY], parts(&frames));
    let exact = &table[..6 * MANY];
    let (answer, _) = reads::read_frames(&bytes, 0, 1, exact);
    answers.met(&answer, 0);
    let (answer, _) = reads::read_frames(&bytes, 0, 1, &exact[1..]);
    answers.met(&answer, 23);
    assert_eq!(answer.unwrap_err().remedy(), Remedy::LendMore);
    let (answer, _) = reads::read_frames(&bytes[..end - 1], 0, 1, exact);
    answers.short(&answer, end as u64);
    for at in [33 * (MANY - 2), 33 * (MANY - 1) + 4] {
        bytes[at + 3] ^= 1;
        let (answer, _) = reads::read_frames(&bytes, 0, 1, exact);
        answers.met(&answer, 34);
        bytes[at + 3] ^= 1;
    }
    let wanted = [(0, 2), (2, 1), (23, 1), (34, 2)];
    answers.assert_are("reads of a million frames", &wanted);
}

/// Runs by every frame length up to 200: the right one is accepted, and what
/// another gives is the same of both.
#[test]
fn every_frame_length() {
    let mut random = Random::new(197);
    let (mut count, mut accepted) = (0, 0);
    for frame_length in [1, 2, 33, 64, 100] {
        for frames in runs(&mut random, frame_length) {
            let mut bytes = image(&frames).bytes;
            bytes.extend(random.bytes(100));
            for asked in 0..=200 {
                let (answer, _) = reads::read_frames(&bytes, 0, asked, &[7; 30]);
                accepted += u64::from(asked as usize == frame_length && number(&answer) == 0);
                count += 1;
            }
        }
    }
    assert_eq!(accepted, 5 * 4 * 3);
    compared(count, "frames by every frame length");
}
