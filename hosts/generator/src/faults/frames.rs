//! A request to read frames.

use super::Draft;
use crate::frames::{image, Frame};

/// Bytes in front of the frames.
const BEFORE: usize = 3;

/// The length of the frames, whatever they are read by.
const LENGTH: u32 = 5;

/// Two regular frames and a final one, whole, with a table that just holds
/// them.
#[derive(Clone, Debug, PartialEq)]
pub struct FrameDraft {
    frames: Vec<Frame>,
    pub start: u64,
    pub frame_length: u32,
    pub numbers: usize,
    cut: Option<usize>,
}

impl FrameDraft {
    pub fn sound() -> FrameDraft {
        let frame = |number: u32, last: Option<u32>| Frame {
            last,
            number,
            iv: vec![0xA0 + number as u8; 12],
            content: vec![b'a'; last.unwrap_or(LENGTH) as usize],
            tag: vec![0xB0 + number as u8; 16],
        };
        FrameDraft {
            frames: vec![frame(1, None), frame(2, None), frame(3, Some(LENGTH - 2))],
            start: BEFORE as u64,
            frame_length: LENGTH,
            numbers: 6 * 3,
            cut: None,
        }
    }

    /// The message ends a byte before the end of this read of a frame, both
    /// counted from 0; one that ends before lacks this read as well.
    pub fn cut(&mut self, frame: usize, read: usize) {
        let cut = 4 * frame + read;
        self.cut = Some(self.cut.map_or(cut, |earlier| earlier.min(cut)));
    }

    /// The number of a frame is that of the next.
    pub fn number_off(&mut self, frame: usize) {
        self.frames[frame].number = frame as u32 + 2;
    }

    /// The final content is said to be a byte longer than the frame length;
    /// so many bytes are there.
    pub fn final_too_long(&mut self) {
        self.frames[2].last = Some(LENGTH + 1);
    }

    /// The message, cut or whole with some bytes behind.
    pub fn message(&self) -> Vec<u8> {
        let mut message = vec![0xEE; BEFORE];
        message.extend(image(&self.frames).bytes);
        match self.cut {
            Some(_) => message.truncate(self.position() as usize - 1),
            None => message.extend(b"rest"),
        }
        message
    }
}

impl Draft for FrameDraft {
    fn position(&self) -> u64 {
        let stops = image(&self.frames).stops;
        self.cut.map_or(0, |read| BEFORE as u64 + stops[read])
    }
}
