//! What the listing program says of a message: the two calls for a host that
//! wants no record, and the listing itself.

use crate::writes::length;
use crate::Refusal;

/// 0 where the listing program accepts the header at `start`, else the
/// refusal's number. It reads either version, tolerantly, with tables of 4,096
/// numbers, so at most 1,024 pairs and 682 keys; where these are too short (22,
/// 23), [`read_header_body`](crate::read_header_body) is lent longer ones.
/// [`Refusal::from_number`] joins a number that is not 0 with its position.
#[inline]
#[must_use]
pub fn header_number(message: &[u8], start: u64) -> u32 {
    // SAFETY: pointer and length are the slice's; it is only read.
    unsafe { bafirolen_sys::bafirolen_header_number(message.as_ptr(), message.len(), start) }
}

/// The tail where the listing program accepts the header at `start`, else the
/// refusal's position, which is 0 but for a shortage. It reads as
/// [`header_number`] does.
#[inline]
#[must_use]
pub fn header_position(message: &[u8], start: u64) -> u64 {
    // SAFETY: as for `header_number`.
    unsafe { bafirolen_sys::bafirolen_header_position(message.as_ptr(), message.len(), start) }
}

/// Writes the listing of the header at the front of the message to the front
/// of `out`; answers the text's length. The message is read as by
/// [`header_number`]; one that is refused has a listing too, the one line
/// `refused`, number and position. An output of 28 bytes more than two for each
/// of the message is never too short.
///
/// Tabs stand between the parts of a line, and each line ends with a line feed:
/// `header`, version, type, suite, content type, frame length and tail; `id` and
/// the message ID; for each pair `pair`, key and value; for each key `key`,
/// provider ID, provider info and ciphertext; in version 2 `data` and the suite
/// data. Type and content type have two hexadecimal digits, the suite four, each
/// byte two, lower-case and without 0x; the type of version 2 is 00, and an
/// empty part leaves nothing between its tabs; all other numbers are decimal.
///
/// # Errors
///
/// 28 [`OutputTooShort`](Refusal::OutputTooShort).
#[inline]
pub fn write_listing(message: &[u8], out: &mut [u8]) -> Result<usize, Refusal> {
    // SAFETY: pointers and lengths are the slices'; `out` is borrowed alone,
    // so it doesn't overlap the message.
    length(unsafe {
        bafirolen_sys::bafirolen_write_listing(
            message.as_ptr(),
            message.len(),
            out.as_mut_ptr(),
            out.len(),
        )
    })
}

/// Which declarations the archive was made for: [`VERSION`](crate::VERSION),
/// unless a stale archive was linked.
#[inline]
#[must_use]
pub fn version() -> u32 {
    // SAFETY: nothing is lent.
    unsafe { bafirolen_sys::bafirolen_version() }
}
