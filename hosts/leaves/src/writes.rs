//! Entries into a lent output.

use crate::Place;

/// Whether the entry was written. It isn't where the part lies outside the
/// text, is above 65,535 bytes or doesn't fit; the output is then as it was.
#[inline]
pub fn put_entry(text: &[u8], (start, len): Place, out: &mut [u8], at: u64) -> bool {
    // SAFETY: pointers and lengths are the slices'; `out` is borrowed alone,
    // so it doesn't overlap the text.
    let answer = unsafe {
        leaves_sys::leaf_put_entry(
            text.as_ptr(),
            text.len(),
            start,
            len,
            out.as_mut_ptr(),
            out.len(),
            at,
        )
    };
    answer == 1
}
