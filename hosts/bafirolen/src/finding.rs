//! Finding a value in a context section, and copying it.

use crate::writes::length;
use crate::{Place, Refusal};

/// Where the value of a key stands, in the context section at `start`, read
/// tolerantly. The key may be any bytes: one that is not UTF-8 is not found.
///
/// The section is read, and nothing before or after it: whoever wants the
/// value from an accepted header reads that first, and then finds at its
/// [`context_start`](crate::Body::context_start).
///
/// # Errors
///
/// In the order of the tests:
/// - 1 [`NotAddressable`](Refusal::NotAddressable);
/// - 2 [`Shortage`](Refusal::Shortage), where the next field is not all there;
/// - 32 [`PastSection`](Refusal::PastSection), of the count and of the length
///   and bytes of each key and value in turn;
/// - 8 [`CountInEmptyContext`](Refusal::CountInEmptyContext);
/// - 9 [`NoCountInContext`](Refusal::NoCountInContext);
/// - of each pair 10 [`KeyNotUtf8`](Refusal::KeyNotUtf8),
///   11 [`ValueNotUtf8`](Refusal::ValueNotUtf8) and
///   12 [`KeySeenBefore`](Refusal::KeySeenBefore);
/// - 14 [`ContextLength`](Refusal::ContextLength);
/// - 29 [`NotFound`](Refusal::NotFound).
#[inline]
pub fn find_value(message: &[u8], start: u64, key: &[u8]) -> Result<Place, Refusal> {
    // SAFETY: pointers and lengths are the slices'; both are only read.
    let record = unsafe {
        bafirolen_sys::bafirolen_find_value(
            message.as_ptr(),
            message.len(),
            start,
            key.as_ptr(),
            key.len(),
        )
    };
    Refusal::test(record.number, record.position)?;
    Ok(Place::new(record.start, record.len))
}

/// The value that [`find_value`] finds, as a part of the message.
///
/// # Errors
///
/// Those of [`find_value`].
#[inline]
pub fn find_bytes<'m>(message: &'m [u8], start: u64, key: &[u8]) -> Result<&'m [u8], Refusal> {
    find_value(message, start, key).map(|place| place.read(message))
}

/// The value that [`find_value`] finds, as a part of the message; on any
/// refusal the empty part at the message's front, which a found value that is
/// empty resembles: [`find_bytes`] tells the two apart.
///
/// The proved operation of this name gives a part of the message, and a
/// function that crosses to C gives no reference; so the part is cut here, at
/// the place that the proved find gives. [`copy_value`] is the one that runs
/// the proved operation itself.
#[inline]
#[must_use]
pub fn find_part<'m>(message: &'m [u8], start: u64, key: &[u8]) -> &'m [u8] {
    find_bytes(message, start, key).unwrap_or(&message[..0])
}

/// Copies the value that [`find_value`] finds to the front of `out`; answers
/// its length. The bytes after it are left as they were, and on a refusal all.
///
/// # Errors
///
/// Those of [`find_value`], in their order; then
/// 28 [`OutputTooShort`](Refusal::OutputTooShort), where the value is longer
/// than `out`.
#[inline]
pub fn copy_value(
    message: &[u8],
    start: u64,
    key: &[u8],
    out: &mut [u8],
) -> Result<usize, Refusal> {
    // SAFETY: pointers and lengths are the slices'; `out` is lent alone, and
    // the others are only read.
    let record = unsafe {
        bafirolen_sys::bafirolen_copy_value(
            message.as_ptr(),
            message.len(),
            start,
            key.as_ptr(),
            key.len(),
            out.as_mut_ptr(),
            out.len(),
        )
    };
    length(record)
}
