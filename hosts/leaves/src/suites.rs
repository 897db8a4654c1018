//! Suite lookup.

/// The version of the suite; 0 where there is none of that number.
#[inline]
pub fn suite_version(number: u32) -> u8 {
    // SAFETY: a number alone crosses.
    unsafe { leaves_sys::leaf_suite_version(number) }
}
