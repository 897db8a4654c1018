//! Writing what is authenticated and not stored.

use crate::writes::length;
use crate::Refusal;

/// Writes what a station authenticates without storing it: of the context
/// section at `start`, read tolerantly, the pairs with the required keys, to
/// the front of `out`; answers how many bytes that takes.
///
/// The pairs are sorted by the bytes of their keys, ascending; a key that
/// begins another comes first. Where no pair has such a key nothing is written,
/// and the answer is 0. Otherwise the count of those pairs is written, in 2
/// bytes, then each pair as its section has it: 4 bytes and its parts. No
/// length stands in front. That is never longer than the whole section, nor
/// than 65,535 bytes: an output of either length is never too short.
///
/// `required` has start and length of each key, places of `text`. The keys may
/// be any bytes and stand in any order; one that no pair has, or that is named
/// twice, changes nothing. All numbers of the table are taken: zeros at the end
/// of a longer one are the empty key. For the same keys the same bytes are
/// written, in whatever order the section has its pairs.
///
/// The section is read, and nothing before or after it: of a header that was
/// read, [`context_start`](crate::Body::context_start) gives the start.
///
/// ```
/// use bafirolen::write_only_authenticated;
///
/// # fn main() -> Result<(), bafirolen::Refusal> {
/// // Three pairs: "tone" and "b", "lang" and "cy", "la" and "".
/// let section = b"\x00\x1B\x00\x03\
///     \x00\x04tone\x00\x01b\x00\x04lang\x00\x02cy\x00\x02la\x00\x00";
/// let text = b"lang";
/// let required = [0, 4, 0, 2]; // "lang" and "la"
/// let mut out = [0; 32];
/// let length = write_only_authenticated(section, 0, text, &required, &mut out)?;
/// assert_eq!(&out[..length], b"\x00\x02\x00\x02la\x00\x00\x00\x04lang\x00\x02cy");
/// # Ok(())
/// # }
/// ```
///
/// # Errors
///
/// In the order of the tests:
/// - 1 [`NotAddressable`](Refusal::NotAddressable);
/// - 2 [`Shortage`](Refusal::Shortage), where the next field is not all there;
/// - 32 [`PastSection`](Refusal::PastSection), of the count and of the length
///   and bytes of each key and value in turn;
/// - 8 [`CountInEmptyContext`](Refusal::CountInEmptyContext);
/// - 9 [`NoCountInContext`](Refusal::NoCountInContext);
/// - of each pair 10 [`KeyNotUtf8`](Refusal::KeyNotUtf8),
///   11 [`ValueNotUtf8`](Refusal::ValueNotUtf8) and
///   12 [`KeySeenBefore`](Refusal::KeySeenBefore);
/// - 14 [`ContextLength`](Refusal::ContextLength);
/// - 31 [`RequiredTableOrPlace`](Refusal::RequiredTableOrPlace);
/// - 28 [`OutputTooShort`](Refusal::OutputTooShort).
#[inline]
pub fn write_only_authenticated(
    message: &[u8],
    start: u64,
    text: &[u8],
    required: &[u32],
    out: &mut [u8],
) -> Result<usize, Refusal> {
    // SAFETY: pointers and lengths are the slices'; `out` is borrowed alone,
    // so it overlaps none of the others, which are only read.
    length(unsafe {
        bafirolen_sys::bafirolen_write_only_authenticated(
            message.as_ptr(),
            message.len(),
            start,
            text.as_ptr(),
            text.len(),
            required.as_ptr(),
            required.len(),
            out.as_mut_ptr(),
            out.len(),
        )
    })
}
