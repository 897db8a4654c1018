//! A request to write frames.

use super::Draft;

/// The length of the frames, whatever they are written by.
const LENGTH: u32 = 5;
const FRAMES: usize = 3;
const NUMBERS: usize = 6;

/// Two regular frames and a final one, and an output that just holds them. All
/// parts of a kind stand behind one another, and bytes behind the last.
#[derive(Clone, Debug, PartialEq)]
pub struct FrameWriteDraft {
    pub frame_length: u32,
    pub text: Vec<u8>,
    pub table: Vec<u32>,
    pub room: usize,
}

/// The places of a frame's parts: contents first, then tags, then IVs.
fn entry(frame: u32) -> [u32; NUMBERS] {
    let last = frame + 1 == FRAMES as u32;
    let content = if last { LENGTH - 2 } else { LENGTH };
    [63 + 12 * frame, 12, 5 * frame, content, 15 + 16 * frame, 16]
}

impl FrameWriteDraft {
    pub fn sound() -> FrameWriteDraft {
        FrameWriteDraft {
            frame_length: LENGTH,
            text: (0..120).collect(),
            table: (0..FRAMES as u32).flat_map(entry).collect(),
            room: 2 * (32 + 5) + 40 + 3,
        }
    }

    /// How many numbers of the table are whole frames.
    fn whole(&self) -> usize {
        self.table.len() / NUMBERS * NUMBERS
    }

    /// The entry of a frame, counted from 0, if the table has it; others may
    /// stand before the three.
    fn entry(&mut self, frame: usize) -> Option<&mut [u32]> {
        let first = self.whole().checked_sub(NUMBERS * FRAMES)?;
        let at = first + NUMBERS * frame;
        Some(&mut self.table[at..at + NUMBERS])
    }

    fn lengthen(&mut self, frame: usize, part: usize) {
        if let Some(entry) = self.entry(frame) {
            entry[2 * part + 1] += 1;
        }
    }

    /// A byte more of IV.
    pub fn iv_longer(&mut self, frame: usize) {
        self.lengthen(frame, 0);
    }

    /// A byte more of tag.
    pub fn tag_longer(&mut self, frame: usize) {
        self.lengthen(frame, 2);
    }

    /// A byte more of content.
    pub fn content_longer(&mut self, frame: usize) {
        self.lengthen(frame, 1);
    }

    /// A byte less of content.
    pub fn content_shorter(&mut self, frame: usize) {
        if let Some(entry) = self.entry(frame) {
            entry[3] -= 1;
        }
    }

    /// The final content is a byte longer than the frame length.
    pub fn final_too_long(&mut self) {
        if let Some(entry) = self.entry(FRAMES - 1) {
            entry[3] = LENGTH + 1;
        }
    }

    /// The last tag begins where the text ends; so does that of a frame that
    /// is put where there is none.
    pub fn outside(&mut self) {
        let end = self.text.len() as u32;
        match self.entry(FRAMES - 1) {
            Some(entry) => entry[4] = end,
            None => self
                .table
                .splice(..0, [0, 12, 0, 0, end, 16])
                .for_each(drop),
        }
    }

    /// No frame, and what the table has beyond whole ones.
    pub fn no_frame(&mut self) {
        self.table.drain(..self.whole());
    }

    /// 65,536 frames: the first of the three again and again before them.
    pub fn too_many(&mut self) {
        let more = 65_536 - self.whole() / NUMBERS;
        self.table.splice(..0, entry(0).repeat(more));
    }
}

impl Draft for FrameWriteDraft {
    fn position(&self) -> u64 {
        0
    }
}
