//! Requests into which single faults are planted, each by a call of its own,
//! so that two of them can stand in one request.
//!
//! A fault that is planted later goes on top of one that is there: where both
//! want the same bytes, the later one has them. So a request with the second
//! fault alone is the one with both in which the first is mended. Two that can
//! hold together are planted so that their order doesn't matter.

mod frame_writes;
mod frames;
mod mending;
mod reading;
mod record;
mod reissuing;
mod writing;

pub use frame_writes::FrameWriteDraft;
pub use frames::FrameDraft;
pub use mending::MendDraft;
pub use reading::{Area, ReadDraft, REQUIRED_TEXT};
pub use record::RecordDraft;
pub use reissuing::ReissueDraft;
pub use writing::WriteDraft;

/// A request with or without faults.
pub trait Draft: Clone + PartialEq {
    /// The position that a shortage wants; 0 where the message isn't cut.
    fn position(&self) -> u64;
}
