//! The record that authenticates a header.

use crate::writes::length;
use crate::{Refusal, IV_LEN, TAG_LEN};

/// An accepted authentication record.
#[derive(Clone, Copy, Debug, PartialEq, Eq, Hash)]
#[non_exhaustive]
#[must_use]
pub struct AuthRecord {
    /// The IV. Version 2 stores none; it is twelve 00.
    pub iv: [u8; IV_LEN],
    /// The tag.
    pub tag: [u8; TAG_LEN],
    /// The place right after the record.
    pub tail: u64,
}

/// Reads the authentication record of a suite at `start`: the IV and the tag
/// that stand right after a header body (its `tail` and `numbers.suite`).
/// Neither is verified.
///
/// # Errors
///
/// In the order of the tests:
/// - 1 [`NotAddressable`](Refusal::NotAddressable);
/// - 6 [`UnknownSuite`](Refusal::UnknownSuite);
/// - 2 [`Shortage`](Refusal::Shortage), at the IV in version 1, then at the
///   tag.
#[inline]
pub fn read_header_auth_tag(message: &[u8], start: u64, suite: u32) -> Result<AuthRecord, Refusal> {
    // SAFETY: pointer and length are the slice's; it is only read.
    let record = unsafe {
        bafirolen_sys::bafirolen_read_header_auth_tag(message.as_ptr(), message.len(), start, suite)
    };
    Refusal::test(record.number, record.position)?;
    Ok(AuthRecord {
        iv: record.iv,
        tag: record.tag,
        tail: record.tail,
    })
}

/// Writes the authentication record of a suite to the front of `out`; answers
/// its length: 28, or 16 in version 2, which takes an IV of twelve bytes too,
/// though it doesn't write it.
///
/// # Errors
///
/// In the order of the tests:
/// - 6 [`UnknownSuite`](Refusal::UnknownSuite);
/// - 19 [`IvLength`](Refusal::IvLength);
/// - 30 [`TagLength`](Refusal::TagLength);
/// - 28 [`OutputTooShort`](Refusal::OutputTooShort).
#[inline]
pub fn write_header_auth_tag(
    suite: u32,
    iv: &[u8],
    tag: &[u8],
    out: &mut [u8],
) -> Result<usize, Refusal> {
    // SAFETY: pointers and lengths are the slices'; `out` is borrowed alone,
    // so it overlaps neither.
    length(unsafe {
        bafirolen_sys::bafirolen_write_header_auth_tag(
            suite,
            iv.as_ptr(),
            iv.len(),
            tag.as_ptr(),
            tag.len(),
            out.as_mut_ptr(),
            out.len(),
        )
    })
}
