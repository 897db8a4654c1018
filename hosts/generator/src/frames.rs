//! Frames as they stand behind a header, built by concatenation.

use crate::image::Image;
use crate::random::Random;

/// What a final frame begins with, in place of a number.
pub const MARK: [u8; 4] = [0xFF; 4];

/// A frame as it is stored, right or wrong.
#[derive(Clone, Debug, PartialEq, Eq)]
pub struct Frame {
    /// The stored length of the content, which only a final frame has.
    pub last: Option<u32>,
    pub number: u32,
    pub iv: Vec<u8>,
    pub content: Vec<u8>,
    pub tag: Vec<u8>,
}

impl Frame {
    /// The parts in turn, each one read: a regular frame's number, IV, content
    /// and tag; a final one's mark, number, IV, length, content and tag.
    pub fn image(&self) -> Image {
        let mut image = Image::default();
        if self.last.is_some() {
            image.part(&MARK);
        }
        image.part(&self.number.to_be_bytes()).part(&self.iv);
        if let Some(length) = self.last {
            image.part(&length.to_be_bytes());
        }
        image.part(&self.content).part(&self.tag);
        image
    }

    /// Where its number ends, from its first byte on.
    pub fn number_end(&self) -> u64 {
        match self.last {
            Some(_) => 8,
            None => 4,
        }
    }
}

/// The frames one behind the other.
pub fn image(frames: &[Frame]) -> Image {
    let mut image = Image::default();
    for frame in frames {
        image.image(&frame.image());
    }
    image
}

/// The parts in the order of a table: IV, content and tag of each frame.
pub fn parts(frames: &[Frame]) -> impl Iterator<Item = &[u8]> {
    frames
        .iter()
        .flat_map(|frame| [&frame.iv[..], &frame.content, &frame.tag])
}

/// Sound frames: so many regular ones with contents of the frame length, and
/// a final one with content of another.
pub fn run(random: &mut Random, frame_length: usize, regular: usize, last: usize) -> Vec<Frame> {
    let lengths = std::iter::repeat_n(frame_length, regular).chain([last]);
    lengths
        .zip(1..)
        .map(|(length, number)| Frame {
            last: (number as usize > regular).then_some(length as u32),
            number,
            iv: random.bytes(12),
            content: random.bytes(length),
            tag: random.bytes(16),
        })
        .collect()
}
