//! Questions about parts of a message; `None` where a part lies outside it.

use crate::Place;
use std::cmp::Ordering;

/// A byte the leaves never answer with. It is no memory fault, so a panic is
/// enough.
#[cold]
fn unknown(answer: u8) -> ! {
    panic!("a leaf answered {answer}")
}

#[inline]
fn truth(answer: u8) -> Option<bool> {
    match answer {
        0 => Some(false),
        1 => Some(true),
        3 => None,
        other => unknown(other),
    }
}

#[inline]
pub fn is_utf8(message: &[u8], (start, len): Place) -> Option<bool> {
    // SAFETY: pointer and length are the slice's; it is only read.
    truth(unsafe { leaves_sys::leaf_is_utf8(message.as_ptr(), message.len(), start, len) })
}

#[inline]
pub fn same_parts(message: &[u8], a: Place, b: Place) -> Option<bool> {
    // SAFETY: as for `is_utf8`.
    truth(unsafe {
        leaves_sys::leaf_same_parts(message.as_ptr(), message.len(), a.0, a.1, b.0, b.1)
    })
}

#[inline]
pub fn compare_parts(message: &[u8], a: Place, b: Place) -> Option<Ordering> {
    // SAFETY: as for `is_utf8`.
    let answer = unsafe {
        leaves_sys::leaf_compare_parts(message.as_ptr(), message.len(), a.0, a.1, b.0, b.1)
    };
    match answer {
        0 => Some(Ordering::Less),
        1 => Some(Ordering::Equal),
        2 => Some(Ordering::Greater),
        3 => None,
        other => unknown(other),
    }
}
