//! The proved leaves for Rust callers.
//!
//! Every function is safe: a slice gives a pointer that is good for its
//! length, `&mut` keeps an output apart from all else, and the leaves have no
//! condition on the numbers. The records come back whole, so that a caller
//! can also see that what doesn't apply is 0.

mod parts;
mod reads;
mod suites;
mod writes;

pub use leaves_sys::{LeafNumber, LeafPart};
pub use parts::{compare_parts, is_utf8, same_parts};
pub use reads::{read_bytes, read_entry, read_entry_flagged, read_u16, read_u32, read_u8};
pub use suites::suite_version;
pub use writes::put_entry;

/// Where a part lies: start and length.
pub type Place = (u64, u64);
