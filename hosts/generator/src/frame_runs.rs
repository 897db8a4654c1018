//! Runs of frames of every size, and what is known of them.

use crate::frames::{image, run, Frame};
use crate::image::Image;
use crate::random::Random;

/// Frames, the length to read them by, and what their bytes decide.
pub struct Built {
    pub image: Image,
    pub frames: Vec<Frame>,
    pub frame_length: u32,
    /// A refusal, and where the read ends that it is tested behind.
    pub fault: Option<(u32, u64)>,
    /// Nothing is decided.
    pub open: bool,
    /// Nothing may stand behind them.
    pub ends: bool,
}

impl Built {
    pub fn new(frames: Vec<Frame>, frame_length: u32) -> Built {
        Built {
            image: image(&frames),
            frames,
            frame_length,
            fault: None,
            open: false,
            ends: false,
        }
    }

    pub fn open(mut self) -> Built {
        self.open = true;
        self
    }

    /// The number of this frame is refused, and none before it.
    pub fn number_refused(mut self, at: usize) -> Built {
        let before = image(&self.frames[..at]).bytes.len() as u64;
        self.fault = Some((34, before + self.frames[at].number_end()));
        self
    }
}

/// Of every size; the small ones, of which several frames can be, are more.
pub fn frame_length(random: &mut Random) -> u32 {
    match random.below(12) {
        0..=2 => 1,
        3 => 2,
        4..=6 => random.between(3, 16) as u32,
        7 => 64,
        8 => random.between(17, 300) as u32,
        9 => random.pick(&[4_096, 65_535, 65_536]),
        10 => random.pick(&[1 << 31, u32::MAX - 1, u32::MAX]),
        _ => random.between(1, u64::from(u32::MAX)) as u32,
    }
}

/// How many regular frames of a length there are.
pub fn regular(random: &mut Random, frame_length: u32) -> usize {
    match frame_length {
        0..=16 if random.one_in(40) => random.between(250, 300) as usize,
        0..=16 => random.length(30),
        17..=300 => random.index(4),
        301..=4_096 => random.index(2),
        _ => 0,
    }
}

/// Sound frames of a length: the final content is empty, full or between.
pub fn sound(random: &mut Random, frame_length: u32) -> Vec<Frame> {
    let regular = regular(random, frame_length);
    let most = frame_length.min(4_096) as usize;
    let last = match random.below(4) {
        0 => 0,
        1 => most,
        _ => random.length(most),
    };
    run(random, frame_length.min(4_096) as usize, regular, last)
}

/// Frames with at least this many regular ones, of a length that allows it.
pub fn with_regular(random: &mut Random, least: usize) -> (Vec<Frame>, u32) {
    let frame_length = random.pick(&[1, 1, 2, 3, 7, 16, 64]);
    let length = frame_length as usize;
    let regular = least + random.length(12);
    let last = random.index(length + 1);
    (run(random, length, regular, last), frame_length)
}
