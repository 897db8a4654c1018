//! Where an image stands in a message: bytes before and behind, cuts, starts.

use crate::image::Image;
use crate::random::Random;

/// A message and the start to read at. `fault` is the number and position of
/// the refusal that a cut or the start makes certain.
#[derive(Clone, Debug)]
pub struct Placed {
    pub message: Vec<u8>,
    pub start: u64,
    pub end: u64,
    pub fault: Option<(u32, u64)>,
}

/// The image with bytes before and behind, whole. There are at least `behind`
/// bytes behind it.
pub fn whole(random: &mut Random, image: &Image, behind: usize) -> Placed {
    let before = random.length(40);
    let mut message = random.bytes(before);
    message.extend_from_slice(&image.bytes);
    let count = random.length(40).max(behind);
    message.extend(random.bytes(count));
    let start = before as u64;
    Placed {
        message,
        start,
        end: start + image.bytes.len() as u64,
        fault: None,
    }
}

/// The image cut anywhere, in front of it too; often just at a read's end or
/// a byte before it.
pub fn cut(random: &mut Random, image: &Image) -> Placed {
    let mut placed = whole(random, image, 0);
    let end = placed.end as usize;
    let length = match random.below(3) {
        0 => {
            let stop = placed.start + random.pick(&image.stops);
            (stop - random.below(2)).min(placed.end - 1) as usize
        }
        _ => random.index(end),
    };
    placed.message.truncate(length);
    placed.fault = image
        .wanted(placed.start, length as u64)
        .map(|position| (2, position));
    placed
}

/// A start past the end of the message; the first read wants `first` bytes.
pub fn start_past(random: &mut Random, image: &Image, first: u64) -> Placed {
    let mut placed = whole(random, image, 0);
    let length = placed.message.len() as u64;
    placed.start = match random.below(4) {
        0 => length,
        1 => length + 1,
        2 => length + random.below(1000),
        _ => u64::from(u32::MAX) - random.below(2),
    };
    placed.fault = Some((2, placed.start + first));
    placed
}

/// A start above 4,294,967,295.
pub fn start_too_large(random: &mut Random, image: &Image) -> Placed {
    let mut placed = whole(random, image, 0);
    let least = u64::from(u32::MAX) + 1;
    placed.start = match random.below(5) {
        0 => least,
        1 => u64::MAX,
        2 => u64::MAX - random.below(64),
        3 => least + random.below(64),
        _ => random.between(least, u64::MAX),
    };
    placed.fault = Some((1, 0));
    placed
}

/// One to four bits of the bytes turned.
pub fn flip_bits(random: &mut Random, bytes: &mut [u8]) {
    if bytes.is_empty() {
        return;
    }
    for _ in 0..1 + random.below(4) {
        let at = random.index(bytes.len());
        bytes[at] ^= 1 << random.below(8);
    }
}

/// A table of random numbers for a reader: exact, longer, one number short,
/// or none at all. Answers whether it holds `numbers`.
pub fn table(random: &mut Random, numbers: usize, may_be_short: bool) -> (Vec<u32>, bool) {
    let length = match random.below(8) {
        0 if may_be_short => numbers.saturating_sub(1),
        1 if may_be_short => random.index(numbers + 1),
        2..=4 => numbers,
        _ => numbers + 1 + random.index(12),
    };
    (fill(random, length), length >= numbers)
}

/// Random numbers for a lent table.
pub fn fill(random: &mut Random, length: usize) -> Vec<u32> {
    (0..length).map(|_| random.next_u64() as u32).collect()
}
