//! Frames that are written are read again as the same parts, and frames that
//! are read are written again to the same bytes.

use compare_header::expected::parts_are;
use compare_header::numbers::number;
use compare_header::scale::seeds;
use compare_header::{compared, reads, writes};
use generator::frame_cases::frame_case;
use generator::frame_runs::{frame_length, sound};
use generator::frame_write_cases::frame_write_case;
use generator::frames::{image, parts, run, Frame};
use generator::random::Random;
use generator::tables::lend_parts;

/// What is written of a table is the image: into an output that just holds it,
/// one that is a byte short, and longer ones, whose rest keeps.
fn is_written(seed: u64, (length, text, table): (u32, &[u8], &[u32]), image: &[u8]) {
    let out = vec![seed as u8; image.len() + seed as usize % 9];
    let (answer, after) = writes::write_frames(length, text, table, &out);
    assert_eq!(answer, Ok(image.len()), "seed {seed}");
    assert!(after.starts_with(image), "seed {seed}");
    assert!(after[image.len()..] == out[image.len()..], "seed {seed}");
}

/// The frames behind some bytes, and in front of others: read to their end as
/// these parts, and written again to the same bytes.
fn is_read_and_written(
    seed: u64,
    random: &mut Random,
    (length, image): (u32, &[u8]),
    frames: &[Frame],
) {
    let (before, behind) = (random.index(7), random.index(7));
    let message = [&random.bytes(before), image, &random.bytes(behind)].concat();
    let table = vec![seed as u32; 6 * frames.len()];
    let (answer, table) = reads::read_frames(&message, before as u64, length, &table);
    let read = answer.unwrap_or_else(|refusal| panic!("seed {seed}: {refusal}"));
    assert_eq!(read.tail, (before + image.len()) as u64, "seed {seed}");
    assert_eq!(read.count, frames.len(), "seed {seed}");
    parts_are(seed, &message, &table, parts(frames));
    is_written(seed, (length, &message, &table), image);
}

/// Sound frames of every size: written, read, and written again.
#[test]
fn written_read_and_written() {
    let mut count = 0;
    for seed in seeds(500_000) {
        let random = &mut Random::new(seed ^ 0xF4A3);
        let length = frame_length(random);
        let frames = sound(random, length);
        let lent: Vec<&[u8]> = parts(&frames).collect();
        let (text, table) = lend_parts(random, &lent);
        let image = image(&frames).bytes;
        is_written(seed, (length, &text, &table), &image);
        is_read_and_written(seed, random, (length, &image), &frames);
        count += 2;
    }
    compared(count, "round trips of frames");
}

/// Whatever is written, by parts that overlap or not, is read as these parts.
#[test]
fn written_then_read() {
    let (mut count, mut accepted) = (0, 0);
    for seed in seeds(200_000) {
        let case = frame_write_case(seed ^ 0x4EAD_0000);
        let (length, text, table) = (case.frame_length, &case.text, &case.table);
        let (answer, out) = writes::write_frames(length, text, table, &case.out);
        count += 1;
        let Ok(written) = answer else { continue };
        let (answer, read) = reads::read_frames(&out, 0, length, &vec![7; table.len()]);
        let tail = answer.map(|read| read.tail);
        assert_eq!(tail, Ok(written as u64), "seed {seed}");
        let wanted = table.chunks_exact(2);
        let wanted = wanted.map(|place| &text[place[0] as usize..][..place[1] as usize]);
        parts_are(seed, &out, &read, wanted);
        accepted += 1;
    }
    assert!(accepted > count / 4, "{accepted} of {count}");
    compared(count + accepted, "frames written, then read");
}

/// Whatever is accepted, damaged or not, is written again to the bytes that
/// were read; by another frame length only where that says the same.
#[test]
fn accepted_then_written() {
    let (mut count, mut accepted, mut alike) = (0, 0, 0);
    for seed in seeds(500_000) {
        let case = frame_case(seed ^ 0xACCE_0000);
        let (message, length) = (&case.message, case.frame_length);
        let room = vec![7; 6 * 310];
        let (answer, table) = reads::read_frames(message, case.start, length, &room);
        count += 1;
        let Ok(read) = answer else { continue };
        let table = &table[..6 * read.count];
        let image = &message[case.start as usize..read.tail as usize];
        is_written(seed, (length, message, table), image);
        let (answer, out) = writes::write_frames(length.wrapping_add(1), message, table, image);
        match (length.wrapping_add(1), read.count) {
            (0, _) => assert_eq!(number(&answer), 20, "seed {seed}"),
            // The final frame alone is the same by every length that it fits.
            (_, 1) => assert!(answer == Ok(image.len()) && out == image, "seed {seed}"),
            _ => assert_eq!(number(&answer), 37, "seed {seed}"),
        }
        alike += u64::from(answer.is_ok());
        accepted += 1;
    }
    assert!(accepted > count / 8 && alike > 0, "{accepted} of {count}");
    compared(count + 2 * accepted, "frames accepted, then written");
}

/// As many frames as are written, and then one more, which are read as well,
/// but not written.
#[test]
fn the_most_frames() {
    const MOST: usize = 65_535;
    let random = &mut Random::new(198);
    let mut count = 0;
    for (length, last) in [(1, 0), (1_024, 1_000)] {
        let frames = run(random, length, MOST - 1, last);
        let image = image(&frames).bytes;
        assert_eq!(image.len(), (MOST - 1) * (32 + length) + 40 + last);
        is_read_and_written(1, random, (length as u32, &image), &frames);
        count += 2;
    }
    let frames = run(random, 1, MOST, 1);
    let image = image(&frames).bytes;
    let (answer, table) = reads::read_frames(&image, 0, 1, &vec![7; 6 * (MOST + 1)]);
    assert_eq!(answer.map(|read| read.count), Ok(MOST + 1));
    let (answer, _) = writes::write_frames(1, &image, &table, &image);
    assert_eq!(number(&answer), 27);
    compared(count + 2, "round trips of 65,535 frames");
}
