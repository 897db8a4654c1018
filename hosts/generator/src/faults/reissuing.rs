//! A request to reissue a draft of version 1.

use super::reading::ReadDraft;
use super::Draft;
use crate::rows::Added;

/// What is read, what it gets, and an output that just holds the body.
#[derive(Clone, Debug, PartialEq)]
pub struct ReissueDraft {
    pub read: ReadDraft,
    pub suite: u32,
    pub id: Vec<u8>,
    pub suite_data: Vec<u8>,
    pub room: usize,
}

impl ReissueDraft {
    pub fn sound() -> ReissueDraft {
        ReissueDraft::of(ReadDraft::body(1))
    }

    /// In the old form, without pairs.
    pub fn old() -> ReissueDraft {
        let mut read = ReadDraft::body(1);
        read.old_form();
        ReissueDraft::of(read)
    }

    fn of(read: ReadDraft) -> ReissueDraft {
        let mut draft = ReissueDraft {
            read,
            suite: 0x0478,
            id: (96..128).collect(),
            suite_data: (128..160).collect(),
            room: 0,
        };
        let mut fields = draft.read.fields.reissued(draft.added());
        fields.pairs = draft.read.pairs().to_vec();
        draft.room = fields.image().bytes.len();
        draft
    }

    pub fn added(&self) -> Added<'_> {
        Added {
            suite: self.suite,
            id: &self.id,
            suite_data: &self.suite_data,
        }
    }
}

impl Draft for ReissueDraft {
    fn position(&self) -> u64 {
        self.read.position()
    }
}
