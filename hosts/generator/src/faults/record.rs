//! A request to read or write an authentication record.

use super::Draft;

/// Bytes in front of the record.
const BEFORE: usize = 3;

/// A record of a suite: an IV and a tag to write, and a message that holds
/// them as the suite's version stores them.
#[derive(Clone, Debug, PartialEq)]
pub struct RecordDraft {
    pub suite: u32,
    pub iv: Vec<u8>,
    pub tag: Vec<u8>,
    pub start: u64,
    pub room: usize,
    stops: &'static [usize],
    cut: Option<usize>,
}

impl RecordDraft {
    /// Version 1 stores 12 bytes of IV and 16 of tag, version 2 the tag.
    pub fn new(version: u32) -> RecordDraft {
        let first = version == 1;
        let stops: &[usize] = if first { &[12, 28] } else { &[16] };
        RecordDraft {
            suite: if first { 0x0014 } else { 0x0478 },
            iv: (1..=12).collect(),
            tag: (13..=28).collect(),
            start: BEFORE as u64,
            room: stops[stops.len() - 1],
            stops,
            cut: None,
        }
    }

    /// The message ends a byte before the end of this read; one that ends
    /// before lacks this read as well.
    pub fn cut(&mut self, read: usize) {
        self.cut = Some(self.cut.map_or(read, |earlier| earlier.min(read)));
    }

    pub fn message(&self) -> Vec<u8> {
        let length = match self.cut {
            Some(read) => BEFORE + self.stops[read] - 1,
            None => BEFORE + self.room + 4,
        };
        (0..length as u8).collect()
    }
}

impl Draft for RecordDraft {
    fn position(&self) -> u64 {
        self.cut
            .map_or(0, |read| (BEFORE + self.stops[read]) as u64)
    }
}
