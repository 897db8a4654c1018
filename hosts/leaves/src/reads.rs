//! Reads at a place of a message, any start.

use leaves_sys::{LeafNumber, LeafPart};

#[inline]
pub fn read_u8(message: &[u8], start: u64) -> LeafNumber {
    // SAFETY: pointer and length are the slice's; it is only read.
    unsafe { leaves_sys::leaf_read_u8(message.as_ptr(), message.len(), start) }
}

#[inline]
pub fn read_u16(message: &[u8], start: u64) -> LeafNumber {
    // SAFETY: as for `read_u8`.
    unsafe { leaves_sys::leaf_read_u16(message.as_ptr(), message.len(), start) }
}

#[inline]
pub fn read_u32(message: &[u8], start: u64) -> LeafNumber {
    // SAFETY: as for `read_u8`.
    unsafe { leaves_sys::leaf_read_u32(message.as_ptr(), message.len(), start) }
}

#[inline]
pub fn read_bytes(message: &[u8], start: u64, n: u32) -> LeafPart {
    // SAFETY: as for `read_u8`.
    unsafe { leaves_sys::leaf_read_bytes(message.as_ptr(), message.len(), start, n) }
}

/// An entry, which goes past no end if there is one.
#[inline]
pub fn read_entry(message: &[u8], start: u64, end: Option<u64>) -> LeafPart {
    match end {
        None => read_entry_flagged(message, start, 0, 0),
        Some(end) => read_entry_flagged(message, start, 1, end),
    }
}

/// The same by the two numbers that cross the boundary: `has_end` 0 means that
/// there is no end, whatever `end` is, and any other number that there is.
#[inline]
pub fn read_entry_flagged(message: &[u8], start: u64, has_end: u32, end: u64) -> LeafPart {
    // SAFETY: as for `read_u8`.
    unsafe { leaves_sys::leaf_read_entry(message.as_ptr(), message.len(), start, has_end, end) }
}
