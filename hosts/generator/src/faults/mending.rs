//! A request to drop keys from a draft, or to add one to it.

use super::reading::{ReadDraft, BEFORE};
use super::Draft;
use crate::large::zeros;
use crate::Key;

/// What is read, with its first byte the buffer's; of its two keys one has the
/// provider ID that is asked for. Behind it is just the room that the key which
/// is added takes.
#[derive(Clone, Debug, PartialEq)]
pub struct MendDraft {
    pub read: ReadDraft,
    pub asked: Vec<u8>,
    pub added: Key,
    /// By so many bytes less.
    pub short: usize,
    pub too_long: bool,
}

impl MendDraft {
    pub fn body(version: u32) -> MendDraft {
        MendDraft {
            read: ReadDraft::body(version),
            asked: b"p1".to_vec(),
            added: [b"p3".to_vec(), b"c".to_vec(), b"ghi".to_vec()],
            short: 0,
            too_long: false,
        }
    }

    /// The second key gets the ID that is asked for. Its first byte is the same
    /// before, so that one that isn't UTF-8 stays so.
    pub fn every_key(&mut self) {
        self.read.fields.keys[1][0][1] = self.asked[1];
    }

    /// With as many keys as there can be.
    pub fn most_keys(&mut self) {
        let keys = self.read.fields.keys.len();
        self.read.empty_keys = 65_535 - keys as u16;
    }

    /// The added ciphertext is a byte too long.
    pub fn part_too_long(&mut self) {
        self.added[2].resize(65_536, b'z');
    }

    /// The added provider ID isn't UTF-8.
    pub fn bad_id(&mut self) {
        self.added[0][0] = 0xFF;
    }

    pub fn buffer(&self) -> Vec<u8> {
        let taken: usize = self.added.iter().map(|part| 2 + part.len()).sum();
        let draft = self.read.draft(taken - self.short);
        if !self.too_long {
            return draft;
        }
        let mut buffer = zeros(1 << 32);
        buffer[..draft.len()].copy_from_slice(&draft);
        buffer
    }
}

impl Draft for MendDraft {
    fn position(&self) -> u64 {
        self.read.position().saturating_sub(BEFORE as u64)
    }
}
