//! Requests to write frames.

use crate::frame_runs::{frame_length, regular};
use crate::frames::{image, Frame};
use crate::random::Random;
use crate::table_faults::misplace;
use crate::tables::lend_parts;
use crate::write_cases::output;
use crate::Expected;

/// A request. Accepted, it puts `image` at the front of the output.
#[derive(Clone, Debug)]
pub struct FrameWriteCase {
    pub frame_length: u32,
    pub text: Vec<u8>,
    pub table: Vec<u32>,
    pub out: Vec<u8>,
    pub image: Vec<u8>,
    pub expected: Expected,
}

/// The lengths of a frame's IV, content and tag.
type Lengths = [usize; 3];

const IV: usize = 0;
const CONTENT: usize = 1;
const TAG: usize = 2;

/// The most frames that are written.
const MOST: usize = 65_535;

/// Faults that are planted before the parts are laid out.
const OF_PARTS: [u32; 4] = [19, 30, 37, 35];
/// And those that are planted in the table and the frame length.
const OF_TABLES: [u32; 4] = [27, 36, 26, 20];

/// What was planted, by which the answer is known.
#[derive(Default)]
struct Planted {
    /// The frame and the number: 19 and 30 are tested of one after the other.
    sealed: Vec<(usize, u32)>,
    others: Vec<u32>,
}

impl Planted {
    /// The first in the order of tests.
    fn first(&self) -> Option<u32> {
        let found = |order: &[u32]| {
            let mut order = order.iter().copied();
            order.find(|number| self.others.contains(number))
        };
        let sealed = self.sealed.iter().min().map(|planted| planted.1);
        found(&[20, 26, 36, 27]).or(sealed).or(found(&[37, 35]))
    }
}

/// Lengths of sound frames: the final content is empty, full or between.
fn sound(random: &mut Random, frame_length: u32) -> Vec<Lengths> {
    let most = frame_length.min(4_096) as usize;
    let last = match random.below(4) {
        0 => 0,
        1 => most,
        _ => random.length(most),
    };
    let regular = regular(random, frame_length);
    let mut frames = vec![[12, most, 16]; regular];
    frames.push([12, last, 16]);
    frames
}

/// Any length but the right one, of which those beside it are more.
fn wrong_length(random: &mut Random, right: usize) -> usize {
    let wrong = match random.below(4) {
        0 => right + 1,
        1 => right.saturating_sub(1),
        2 => random.pick(&[0, 12, 16, 28, 255, 256 + right]),
        _ => random.index(80),
    };
    if wrong == right {
        return right + 2;
    }
    wrong
}

/// Plants a fault in the parts of some frame that can have it.
fn spoil(
    random: &mut Random,
    frames: &mut [Lengths],
    planted: &mut Planted,
    (number, length): (u32, u32),
) {
    let last = frames.len() - 1;
    let at = random.index(frames.len());
    match number {
        19 => frames[at][IV] = wrong_length(random, 12),
        30 => frames[at][TAG] = wrong_length(random, 16),
        37 if last > 0 && length <= 4_096 => {
            let at = random.index(last);
            frames[at][CONTENT] = wrong_length(random, length as usize);
        }
        // A longer content would have to be there.
        35 if length <= 65_536 => {
            frames[last][CONTENT] = length as usize + 1 + random.length(40);
        }
        _ => return,
    }
    match number {
        19 | 30 => planted.sealed.push((at, number)),
        _ => planted.others.push(number),
    }
}

/// The parts one behind the other, in gaps or shared, in their order, from the
/// back or in any.
fn laid(random: &mut Random, lengths: &[usize]) -> (Vec<u8>, Vec<u32>) {
    let parts: Vec<Vec<u8>> = lengths.iter().map(|&length| random.bytes(length)).collect();
    let mut order: Vec<usize> = (0..parts.len()).collect();
    if random.one_in(2) {
        random.shuffle(&mut order);
    }
    let ordered: Vec<&[u8]> = order.iter().map(|&part| &parts[part][..]).collect();
    let (text, places) = lend_parts(random, &ordered);
    let mut table = vec![0; places.len()];
    for (place, part) in places.chunks_exact(2).zip(order) {
        table[2 * part..2 * part + 2].copy_from_slice(place);
    }
    (text, table)
}

/// Places anywhere in a text that is little longer than the longest part, so
/// that they overlap; or all of them at its front.
fn overlapping(random: &mut Random, lengths: &[usize]) -> (Vec<u8>, Vec<u32>) {
    let longest = lengths.iter().copied().max().unwrap_or(0);
    let length = longest + random.length(60);
    let text = random.bytes(length);
    let shared = random.one_in(4);
    let place = |&length: &usize| {
        let start = match shared {
            true => 0,
            false => random.index(text.len() - length + 1),
        };
        [start as u32, length as u32]
    };
    let table = lengths.iter().flat_map(place).collect();
    (text, table)
}

/// The frames at a table's places, one behind the other.
fn image_of(text: &[u8], table: &[u32]) -> Vec<u8> {
    let count = table.len() / 6;
    let part = |place: &[u32]| text[place[0] as usize..][..place[1] as usize].to_vec();
    let frame = |(entry, number): (&[u32], usize)| Frame {
        last: (number == count).then_some(entry[3]),
        number: number as u32,
        iv: part(entry),
        content: part(&entry[2..]),
        tag: part(&entry[4..]),
    };
    let frames: Vec<Frame> = table.chunks_exact(6).zip(1..).map(frame).collect();
    image(&frames).bytes
}

/// More frames than can be written: those that are there, again and again.
fn multiply(random: &mut Random, table: &mut Vec<u32>) {
    let count = MOST + 1 + random.length(3);
    let entries = table.clone();
    table.extend(entries.iter().cycle().take(6 * count - entries.len()));
}

/// Plants the faults of a table and of the frame length, the last on top.
fn spoil_table(random: &mut Random, case: &mut FrameWriteCase, number: u32) {
    match number {
        27 => multiply(random, &mut case.table),
        36 => case.table.clear(),
        26 => misplace(random, &mut case.table, 6, &case.text),
        _ => case.frame_length = 0,
    }
}

/// Frames of a length, mostly sound: once in a while just as many as can be
/// written, or a first one whose content is shorter than a length that no
/// content here has.
fn frames(random: &mut Random, planted: &mut Planted, frame_length: u32) -> Vec<Lengths> {
    let mut frames = sound(random, frame_length);
    match frame_length {
        0..=16 if random.one_in(3_000) => {
            let first = [12, frame_length as usize, 16];
            frames.splice(..0, vec![first; MOST - frames.len()]);
        }
        4_097.. if random.one_in(4) => {
            frames.insert(0, [12, random.index(80), 16]);
            planted.others.push(37);
        }
        _ => {}
    }
    frames
}

/// The request of a seed: any number of faults, of which the first in the
/// order of tests decides.
pub fn frame_write_case(seed: u64) -> FrameWriteCase {
    let mut random = Random::new(seed);
    let random = &mut random;
    let frame_length = frame_length(random);
    let mut planted = Planted::default();
    let mut frames = frames(random, &mut planted, frame_length);
    for _ in 0..random.pick(&[0, 0, 0, 1, 1, 2, 3]) {
        let number = random.pick(&OF_PARTS);
        spoil(random, &mut frames, &mut planted, (number, frame_length));
    }
    let lengths = frames.concat();
    let (text, table) = match random.one_in(2) && lengths.len() < 3_000 {
        true => laid(random, &lengths),
        false => overlapping(random, &lengths),
    };
    let image = image_of(&text, &table);
    let (out, fits) = output(random, image.len());
    let mut case = FrameWriteCase {
        frame_length,
        text,
        table,
        out,
        image,
        expected: Expected::Open,
    };
    for number in OF_TABLES {
        if random.one_in(if number == 27 { 1_000 } else { 16 }) {
            spoil_table(random, &mut case, number);
            planted.others.push(number);
        }
    }
    case.expected = match planted.first() {
        Some(number) => Expected::Refused(number, 0),
        None if fits => Expected::Accepted,
        None => Expected::Refused(28, 0),
    };
    case
}
