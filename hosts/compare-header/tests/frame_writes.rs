//! Frames written by other lengths than theirs, with parts of every length, and
//! from tables of every length.

use compare_header::answers::Answers;
use compare_header::writes;
use generator::frames::{image, parts, run, Frame};
use generator::random::Random;
use generator::tables::lend_parts;

/// Runs of a length, of one frame to four, whose final content is empty,
/// full or between.
fn runs(random: &mut Random, frame_length: usize) -> Vec<Vec<Frame>> {
    let lasts = [0, frame_length / 2, frame_length];
    let shapes = (0..4).flat_map(|regular| lasts.map(|last| (regular, last)));
    shapes
        .map(|(regular, last)| run(random, frame_length, regular, last))
        .collect()
}

fn lent(random: &mut Random, frames: &[Frame]) -> (Vec<u8>, Vec<u32>) {
    let parts: Vec<&[u8]> = parts(frames).collect();
    lend_parts(random, &parts)
}

/// By every frame length up to 80: 20 of none; of more than one frame 37 of
/// all but the right one; 35 of those that are shorter than the last content.
#[test]
fn every_frame_length() {
    let random = &mut Random::new(211);
    let mut answers = Answers::default();
    let mut wanted = [(0, 0), (20, 0), (35, 0), (37, 0)];
    for frame_length in [1, 2, 33, 64] {
        for frames in runs(random, frame_length) {
            let (text, table) = lent(random, &frames);
            let out = vec![0x11; 400];
            let last = frames[frames.len() - 1].content.len();
            for asked in 0..=80 {
                let (answer, _) = writes::write_frames(asked as u32, &text, &table, &out);
                let row = match asked {
                    0 => 1,
                    _ if frames.len() > 1 && asked != frame_length => 3,
                    _ if asked < last => 2,
                    _ => 0,
                };
                answers.met(&answer, wanted[row].0);
                wanted[row].1 += 1;
            }
        }
    }
    assert!(wanted.iter().all(|row| row.1 > 0));
    answers.assert_are("frames written by every frame length", &wanted);
}

/// IVs, tags and contents of every length up to 40, in each of four frames of
/// 20 bytes: of the final content one that is shorter is right too.
#[test]
fn every_length_of_a_part() {
    let mut answers = Answers::default();
    let text: Vec<u8> = (0..80).collect();
    for frame in 0..4 {
        for (part, right, number) in [(0, 12, 19), (1, 20, 37), (2, 16, 30)] {
            for length in 0..=40 {
                let mut table = [20, 12, 30, 20, 40, 16].repeat(4);
                table[6 * frame + 2 * part + 1] = length;
                let (answer, _) = writes::write_frames(20, &text, &table, &[0x11; 240]);
                let wanted = match (frame, part) {
                    (3, 1) if length > right => 35,
                    (3, 1) => 0,
                    _ if length == right => 0,
                    _ => number,
                };
                answers.met(&answer, wanted);
            }
        }
    }
    let wanted = [
        (0, 11 + 21),
        (19, 4 * 40),
        (30, 4 * 40),
        (35, 20),
        (37, 3 * 40),
    ];
    answers.assert_are("frames with parts of every length", &wanted);
}

/// The fronts of a table of four frames, of every length: where it is in sixes,
/// the last that is lent is the final one.
#[test]
fn every_table_length() {
    let random = &mut Random::new(212);
    let mut answers = Answers::default();
    for frame_length in [1, 5] {
        let frames = run(random, frame_length, 3, frame_length);
        let (text, table) = lent(random, &frames);
        for numbers in 0..=table.len() {
            let front = &table[..numbers];
            let out = vec![0x11; 200];
            let (answer, out) = writes::write_frames(frame_length as u32, &text, front, &out);
            answers.met(
                &answer,
                match (numbers, numbers % 6) {
                    (0, _) => 36,
                    (_, 0) => 0,
                    _ => 26,
                },
            );
            let Ok(length) = answer else { continue };
            let mut written = frames[..numbers / 6].to_vec();
            written[numbers / 6 - 1].last = Some(frame_length as u32);
            assert!(out[..length] == image(&written).bytes, "{numbers} numbers");
        }
    }
    let wanted = [(0, 2 * 4), (26, 2 * 20), (36, 2)];
    answers.assert_are("frames written from tables of every length", &wanted);
}
