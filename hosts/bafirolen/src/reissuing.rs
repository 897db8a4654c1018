//! Turning a draft of version 1 into a body of version 2.

use crate::writes::length;
use crate::Refusal;

/// What a draft of version 1 is given to become a body of version 2.
#[derive(Clone, Copy, Debug, PartialEq, Eq, Hash)]
pub struct Reissue<'a> {
    /// The new suite, one of version 2: 0x0478 or 0x0578. All of its 32 bits are
    /// tested.
    pub suite: u32,
    /// The new message ID: 32 bytes.
    pub message_id: &'a [u8],
    /// The suite data: 32 bytes.
    pub suite_data: &'a [u8],
}

/// Writes the draft of version 1 at `start` as a body of version 2, to the front
/// of `out`; answers its length, which [`reissued_header_body_len`] gives before.
///
/// Such a draft is a header body, as
/// [`write_header_body`](crate::write_header_body) leaves it, and not the
/// [`Draft`](crate::Draft) that this is written from. It is read tolerantly, with
/// no maximum, and without tables, however many pairs and keys it has. What stands
/// behind it is neither read nor copied: an authentication record is made for the
/// draft as it is, and the new body needs another.
///
/// The new body has what the [`Reissue`] gives, and of the draft the pairs and
/// encrypted data keys in their order, the content type and the frame length. An
/// empty context is written 00 00, also where the draft has it in its old
/// [`Form`](crate::Form). It takes 42 bytes more than the draft, and 40 where that
/// has the old form. If it has at most 4,294,967,295 bytes, the tables hold its
/// entries and no maximum is set, reading it tolerantly gives those fields.
///
/// A body of version 2 is refused by 4, whatever stands behind its first byte: the
/// other direction is refused because suite data would be lost. No policy is
/// asked.
///
/// ```
/// use bafirolen::{read_header_body, reissue_header_body, Refusal, Reissue, Request};
///
/// # fn main() -> Result<(), Refusal> {
/// let sections = b"\x00\x0C\x00\x01\x00\x04lang\x00\x02cy\
///     \x00\x01\x00\x02p1\x00\x01a\x00\x03\xAA\xBB\xCC";
/// let front = b"\x01\x80\x01\x78\x00\x01\x02\x03\x04\x05\x06\x07\x08\x09\x0A\x0B\x0C\x0D\x0E\x0F";
/// let back = b"\x02\x00\x00\x00\x00\x0C\x00\x00\x10\x00";
/// let draft = [&front[..], sections, back, b"what stands behind it"].concat();
///
/// let reissue = Reissue { suite: 0x0478, message_id: &[7; 32], suite_data: &[8; 32] };
/// let mut out = [0; 100];
/// assert_eq!(reissue_header_body(&draft, 0, &reissue, &mut out), Ok(100));
/// let wanted = [b"\x02\x04\x78", &[7; 32][..], sections, b"\x02\x00\x00\x10\x00", &[8; 32]].concat();
/// assert_eq!(out[..], wanted);
///
/// let (mut pairs, mut keys) = ([0; 4], [0; 6]);
/// let body = read_header_body(&out, 0, Request::default(), &mut pairs, &mut keys)?;
/// assert_eq!((body.numbers.version, body.numbers.frame_length), (2, 4_096));
/// assert_eq!((body.pairs().len(), body.keys().len()), (1, 1));
///
/// // It is of version 2 now.
/// let again = reissue_header_body(&wanted, 0, &reissue, &mut out);
/// assert_eq!(again, Err(Refusal::OtherVersion));
/// // A suite of version 1 commits to nothing.
/// let other = Reissue { suite: 0x0378, ..reissue };
/// let refused = reissue_header_body(&draft, 0, &other, &mut out);
/// assert_eq!(refused, Err(Refusal::SuiteOfOtherVersion));
/// # Ok(())
/// # }
/// ```
///
/// # Errors
///
/// Those of reading the draft in version 1 only, and then those of what is added,
/// in the order of the tests:
/// - 1 [`NotAddressable`](Refusal::NotAddressable);
/// - 2 [`Shortage`](Refusal::Shortage), where the next field is not all there;
/// - 3 [`UnknownVersion`](Refusal::UnknownVersion);
/// - 4 [`OtherVersion`](Refusal::OtherVersion), of a body of version 2;
/// - 5 [`MessageType`](Refusal::MessageType);
/// - of the draft's suite 6 [`UnknownSuite`](Refusal::UnknownSuite) and
///   7 [`SuiteOfOtherVersion`](Refusal::SuiteOfOtherVersion);
/// - 32 [`PastSection`](Refusal::PastSection), of the count and of the length
///   and bytes of each key and value in turn;
/// - 8 [`CountInEmptyContext`](Refusal::CountInEmptyContext);
/// - 9 [`NoCountInContext`](Refusal::NoCountInContext);
/// - of each pair 10 [`KeyNotUtf8`](Refusal::KeyNotUtf8),
///   11 [`ValueNotUtf8`](Refusal::ValueNotUtf8) and
///   12 [`KeySeenBefore`](Refusal::KeySeenBefore);
/// - 14 [`ContextLength`](Refusal::ContextLength);
/// - 38 [`NoEncryptedDataKey`](Refusal::NoEncryptedDataKey);
/// - of each key 16 [`ProviderIdNotUtf8`](Refusal::ProviderIdNotUtf8);
/// - 17 [`ContentType`](Refusal::ContentType);
/// - 18 [`ReservedBytes`](Refusal::ReservedBytes);
/// - 19 [`IvLength`](Refusal::IvLength);
/// - 20 [`FrameLength`](Refusal::FrameLength);
/// - of the new suite 6 [`UnknownSuite`](Refusal::UnknownSuite) and
///   7 [`SuiteOfOtherVersion`](Refusal::SuiteOfOtherVersion);
/// - 24 [`IdLength`](Refusal::IdLength), of the new message ID;
/// - 25 [`SuiteDataLength`](Refusal::SuiteDataLength);
/// - 28 [`OutputTooShort`](Refusal::OutputTooShort).
#[inline]
pub fn reissue_header_body(
    message: &[u8],
    start: u64,
    reissue: &Reissue<'_>,
    out: &mut [u8],
) -> Result<usize, Refusal> {
    let (id, id_len) = (reissue.message_id.as_ptr(), reissue.message_id.len());
    let (data, data_len) = (reissue.suite_data.as_ptr(), reissue.suite_data.len());
    // SAFETY: pointers and lengths are the slices'; `out` is borrowed alone,
    // so it overlaps none of the others, which are only read.
    length(unsafe {
        bafirolen_sys::bafirolen_reissue_header_body(
            message.as_ptr(),
            message.len(),
            start,
            reissue.suite,
            id,
            id_len,
            data,
            data_len,
            out.as_mut_ptr(),
            out.len(),
        )
    })
}

/// Says how long an output [`reissue_header_body`] needs for the same draft and
/// the same [`Reissue`]: how many bytes it would write.
///
/// A refusal here is what it answers whatever output it is lent. Where there is
/// none, it answers 28 [`OutputTooShort`](Refusal::OutputTooShort) exactly where
/// the output is shorter, and otherwise writes just so many bytes.
///
/// ```
/// use bafirolen::{reissued_header_body_len, Refusal, Reissue};
///
/// let old = b"\x01\x80\x01\x78\x00\x01\x02\x03\x04\x05\x06\x07\x08\x09\x0A\x0B\x0C\x0D\x0E\x0F\
///     \x00\x02\x00\x00\
///     \x00\x01\x00\x02p1\x00\x01a\x00\x03\xAA\xBB\xCC\
///     \x02\x00\x00\x00\x00\x0C\x00\x00\x10\x00";
/// let reissue = Reissue { suite: 0x0578, message_id: &[7; 32], suite_data: &[8; 32] };
/// // The empty context takes 2 bytes less then.
/// assert_eq!(reissued_header_body_len(old, 0, &reissue), Ok(old.len() + 40));
///
/// let short = Reissue { message_id: &[7; 16], ..reissue };
/// assert_eq!(reissued_header_body_len(old, 0, &short), Err(Refusal::IdLength));
/// let cut = reissued_header_body_len(&old[..47], 0, &short);
/// assert_eq!(cut, Err(Refusal::Shortage { position: 48 }));
/// ```
///
/// # Errors
///
/// Those of [`reissue_header_body`] but 28, with the same positions.
#[inline]
pub fn reissued_header_body_len(
    message: &[u8],
    start: u64,
    reissue: &Reissue<'_>,
) -> Result<usize, Refusal> {
    let (id, id_len) = (reissue.message_id.as_ptr(), reissue.message_id.len());
    let (data, data_len) = (reissue.suite_data.as_ptr(), reissue.suite_data.len());
    // SAFETY: pointers and lengths are the slices', which are only read.
    length(unsafe {
        bafirolen_sys::bafirolen_reissued_header_body_len(
            message.as_ptr(),
            message.len(),
            start,
            reissue.suite,
            id,
            id_len,
            data,
            data_len,
        )
    })
}

/// Writes the draft of version 1 at `start` as a body of version 2 to a vector of
/// just its length: asks [`reissued_header_body_len`], and lends an output of so
/// many bytes to [`reissue_header_body`]. It is there with the feature `alloc`,
/// which is on by default.
///
/// ```
/// use bafirolen::{header_position, reissued_header_body_to_vec, Reissue};
///
/// # fn main() -> Result<(), bafirolen::Refusal> {
/// let draft = b"\x01\x80\x01\x78\x00\x01\x02\x03\x04\x05\x06\x07\x08\x09\x0A\x0B\x0C\x0D\x0E\x0F\
///     \x00\x00\x00\x01\x00\x02p1\x00\x01a\x00\x03\xAA\xBB\xCC\
///     \x02\x00\x00\x00\x00\x0C\x00\x00\x10\x00";
/// let reissue = Reissue { suite: 0x0578, message_id: &[7; 32], suite_data: &[8; 32] };
/// let body = reissued_header_body_to_vec(draft, 0, &reissue)?;
/// assert_eq!(body.len(), 46 + 42);
/// assert_eq!(header_position(&body, 0), 88);
/// # Ok(())
/// # }
/// ```
///
/// # Errors
///
/// Those of [`reissued_header_body_len`]; so never 28.
#[cfg(feature = "alloc")]
pub fn reissued_header_body_to_vec(
    message: &[u8],
    start: u64,
    reissue: &Reissue<'_>,
) -> Result<alloc::vec::Vec<u8>, Refusal> {
    let mut out = alloc::vec![0; reissued_header_body_len(message, start, reissue)?];
    // As long as what is written, all of which was tested when it was measured.
    reissue_header_body(message, start, reissue, &mut out)?;
    Ok(out)
}
