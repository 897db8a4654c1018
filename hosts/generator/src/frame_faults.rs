//! Runs of frames by the kind of their damage.

use crate::frame_runs::{frame_length, sound, with_regular, Built};
use crate::frames::{image, run, Frame, MARK};
use crate::random::Random;
use crate::surroundings::flip_bits;

/// The kinds of frames.
#[derive(Clone, Copy, Debug, PartialEq, Eq)]
pub enum Kind {
    Intact,
    /// A number that isn't the next one.
    Number,
    /// Two frames in each other's place, one twice, or one left out.
    Order,
    /// FF FF FF FF in the place of a regular frame's number.
    MarkInside,
    /// The final frame without its FF FF FF FF, or with a number in its place.
    Unmarked,
    /// Regular frames alone.
    NoFinal,
    /// A final content that is said to be longer than the frame length.
    TooLong,
    /// One that is said to be shorter or longer than it is, up to the frame
    /// length.
    OtherFinal,
    /// A frame that is far longer than what is there of it.
    Large,
    /// A frame length that isn't that of the frames.
    OtherLength,
    Zero,
    BitFlips,
    Noise,
}

pub const KINDS: [Kind; 18] = [
    Kind::Intact,
    Kind::Intact,
    Kind::Intact,
    Kind::Intact,
    Kind::Number,
    Kind::Number,
    Kind::Order,
    Kind::Order,
    Kind::MarkInside,
    Kind::Unmarked,
    Kind::NoFinal,
    Kind::TooLong,
    Kind::OtherFinal,
    Kind::Large,
    Kind::OtherLength,
    Kind::Zero,
    Kind::BitFlips,
    Kind::Noise,
];

/// A number that isn't the right one, nor FF FF FF FF in a regular frame.
fn wrong_number(random: &mut Random, frame: &Frame) -> u32 {
    let right = frame.number;
    let wrong = match random.below(9) {
        0 | 1 => right + 1,
        2 | 3 => right - 1,
        4 => 0,
        // Right in its lowest bytes.
        5 => right + random.pick(&[1 << 8, 1 << 16, 1 << 24, 1 << 31]),
        6 => right.swap_bytes(),
        7 => random.pick(&[u32::MAX, u32::MAX - 1, 1 << 31]),
        _ => random.next_u64() as u32,
    };
    let mark = frame.last.is_none() && wrong == u32::MAX;
    if wrong == right || mark {
        return right + 2;
    }
    wrong
}

/// Behind the number of the first of these frames there may be another fault,
/// which isn't reached.
fn later_fault(random: &mut Random, frames: &mut [Frame]) {
    let at = frames.len() - 1;
    match random.below(4) {
        0 => frames[at].last = frames[at].last.map(|_| u32::MAX),
        1 if at > 0 => frames[at].number = wrong_number(random, &frames[at]),
        _ => {}
    }
}

fn number_off(random: &mut Random) -> Built {
    let frame_length = frame_length(random);
    let mut frames = sound(random, frame_length);
    let at = random.index(frames.len());
    frames[at].number = wrong_number(random, &frames[at]);
    later_fault(random, &mut frames[at..]);
    Built::new(frames, frame_length).number_refused(at)
}

/// The first frame that isn't in its place is refused by its number.
fn out_of_order(random: &mut Random) -> Built {
    let (mut frames, frame_length) = with_regular(random, 1);
    let at = random.index(frames.len() - 1);
    let refused = match random.below(3) {
        0 => {
            let other = random.between(at as u64 + 1, frames.len() as u64 - 1) as usize;
            frames.swap(at, other);
            at
        }
        1 => {
            frames.insert(at + 1, frames[at].clone());
            at + 1
        }
        _ => {
            frames.remove(at);
            at
        }
    };
    Built::new(frames, frame_length).number_refused(refused)
}

/// What stands behind the mark, the front of the IV, is read as a number. Where
/// it is the right one, a final frame begins, of which nothing is decided.
fn mark_inside(random: &mut Random) -> Built {
    let (mut frames, frame_length) = with_regular(random, 1);
    let at = random.index(frames.len() - 1);
    let right = frames[at].number;
    let meant = random.one_in(3);
    if meant || frames[at].iv[..4] == right.to_be_bytes() {
        let number = if meant { right } else { right + 1 };
        frames[at].iv[..4].copy_from_slice(&number.to_be_bytes());
    }
    let before = image(&frames[..at]);
    let start = before.bytes.len();
    let number_end = start as u64 + 8;
    let mut built = Built::new(frames, frame_length);
    let image = &mut built.image;
    image.bytes[start..start + 4].copy_from_slice(&MARK);
    image.stops.insert(before.stops.len() + 1, number_end);
    built.fault = Some((34, number_end));
    built.open = meant;
    built
}

fn unmarked(random: &mut Random) -> Built {
    let frame_length = frame_length(random);
    let frames = sound(random, frame_length);
    let at = image(&frames[..frames.len() - 1]).bytes.len();
    let number = frames[frames.len() - 1].number.to_be_bytes();
    let mut built = Built::new(frames, frame_length);
    if random.one_in(2) {
        built.image.bytes.drain(at..at + 4);
    } else {
        built.image.bytes[at..at + 4].copy_from_slice(&number);
    }
    built.open()
}

/// The number of a next frame is wanted.
fn no_final(random: &mut Random) -> Built {
    let (mut frames, frame_length) = with_regular(random, 1);
    frames.pop();
    let mut built = Built::new(frames, frame_length);
    built.image.stops.push(built.image.bytes.len() as u64 + 4);
    built.ends = true;
    built
}

/// The length is refused as soon as it is read, before the content and tag.
fn too_long(random: &mut Random) -> Built {
    let frame_length = frame_length(random).min(u32::MAX - 1);
    let mut frames = sound(random, frame_length);
    let stored = match random.below(4) {
        0 | 1 => frame_length + 1,
        2 => u32::MAX,
        _ => random.between(u64::from(frame_length) + 1, u64::from(u32::MAX)) as u32,
    };
    let at = frames.len() - 1;
    frames[at].last = Some(stored);
    let before = image(&frames[..at]).bytes.len() as u64;
    let mut built = Built::new(frames, frame_length);
    built.fault = Some((35, before + 8 + 12 + 4));
    built
}

/// Content is read as its tag, or the tag and what stands behind as content.
fn other_final(random: &mut Random) -> Built {
    let (mut frames, frame_length) = with_regular(random, 0);
    let at = frames.len() - 1;
    let stored = random.between(0, u64::from(frame_length)) as u32;
    frames[at].last = Some(stored);
    Built::new(frames, frame_length).open()
}

/// The first frame, regular or final, is said to be longer than any message
/// here; a few bytes of its content are there.
fn large(random: &mut Random) -> Built {
    let frame_length = random.pick(&[1 << 20, 1 << 31, u32::MAX - 1, u32::MAX]);
    let mut frames = run(random, 0, 0, 0);
    let length = random.between(1 << 20, u64::from(frame_length));
    let last = random.one_in(2);
    frames[0].last = last.then_some(length as u32);
    let there = random.index(60);
    frames[0].content = random.bytes(there);
    let mut built = Built::new(frames, frame_length);
    let stops = &mut built.image.stops;
    // The tag that was built stands where content is wanted.
    stops.truncate(if last { 4 } else { 2 });
    let content = if last { length } else { frame_length.into() };
    let end = stops[stops.len() - 1] + content;
    stops.extend([end, end + 16]);
    built
}

fn intact(random: &mut Random) -> Built {
    let frame_length = frame_length(random);
    Built::new(sound(random, frame_length), frame_length)
}

fn other_length(random: &mut Random) -> Built {
    let mut built = intact(random).open();
    built.frame_length = match random.below(3) {
        0 => built.frame_length.saturating_add(1),
        1 => built.frame_length.max(2) - 1,
        _ => frame_length(random),
    };
    built
}

/// Intact frames whose bytes are changed.
fn changed(random: &mut Random, change: impl FnOnce(&mut Random, &mut Vec<u8>)) -> Built {
    let mut built = intact(random).open();
    change(random, &mut built.image.bytes);
    built
}

/// Frames of the kind asked for.
pub fn build(random: &mut Random, kind: Kind) -> Built {
    match kind {
        Kind::Intact => intact(random),
        Kind::Number => number_off(random),
        Kind::Order => out_of_order(random),
        Kind::MarkInside => mark_inside(random),
        Kind::Unmarked => unmarked(random),
        Kind::NoFinal => no_final(random),
        Kind::TooLong => too_long(random),
        Kind::OtherFinal => other_final(random),
        Kind::Large => large(random),
        Kind::OtherLength => other_length(random),
        Kind::Zero => Built {
            frame_length: 0,
            ..intact(random)
        },
        Kind::BitFlips => changed(random, |random, bytes| flip_bits(random, bytes)),
        Kind::Noise => changed(random, |random, bytes| {
            let length = random.length(120);
            *bytes = random.bytes(length);
        }),
    }
}
