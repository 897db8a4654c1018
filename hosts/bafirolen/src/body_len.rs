//! How long a body is, before it is written.

use crate::writes::length;
use crate::{Draft, Policy, Refusal};

/// Says how long an output [`write_header_body`](crate::write_header_body)
/// needs for a draft, in the draft's form and under its policy if it names one:
/// how many bytes it would write.
///
/// A refusal here is the writer's answer whatever output it is lent. Where
/// there is none, the writer answers 28
/// [`OutputTooShort`](Refusal::OutputTooShort) exactly where the output is
/// shorter, and otherwise writes just so many bytes.
///
/// Keys may share their places, so that a body may be far longer than its text:
/// up to 12.9 GB.
///
/// ```
/// use bafirolen::{header_body_len, write_header_body, Draft, Numbers, Refusal, FRAMED};
///
/// # fn main() -> Result<(), Refusal> {
/// let numbers = Numbers::version_1(0x0178, FRAMED, 4_096);
/// let text = b"langcyp1a\xAA\xBB\xCC";
/// let (pairs, keys) = ([0, 4, 4, 2], [6, 2, 8, 1, 9, 3]);
/// let draft = Draft::new(numbers, &[7; 16]).with_tables(text, &pairs, &keys);
/// let length = header_body_len(&draft)?;
/// assert_eq!(length, 58);
/// let mut out = vec![0; length];
/// assert_eq!(write_header_body(&draft, &mut out), Ok(length));
/// assert_eq!(write_header_body(&draft, &mut out[1..]), Err(Refusal::OutputTooShort));
///
/// // What no output would change is refused already.
/// let draft = Draft::new(numbers, &[7; 15]);
/// assert_eq!(header_body_len(&draft), Err(Refusal::IdLength));
/// let draft = Draft::new(numbers, &[7; 16]);
/// assert_eq!(header_body_len(&draft), Err(Refusal::NoEncryptedDataKey));
/// # Ok(())
/// # }
/// ```
///
/// # Errors
///
/// Those of the writer but 28, in the order of the tests:
/// - 3 [`UnknownVersion`](Refusal::UnknownVersion);
/// - 5 [`MessageType`](Refusal::MessageType);
/// - 6 [`UnknownSuite`](Refusal::UnknownSuite);
/// - 7 [`SuiteOfOtherVersion`](Refusal::SuiteOfOtherVersion);
/// - 39 [`ForbiddenByPolicy`](Refusal::ForbiddenByPolicy), if the draft names a
///   policy that does not write its version;
/// - 24 [`IdLength`](Refusal::IdLength);
/// - of the pairs 26 [`TableOrPlace`](Refusal::TableOrPlace),
///   27 [`CountOrPartTooLong`](Refusal::CountOrPartTooLong), of each
///   10 [`KeyNotUtf8`](Refusal::KeyNotUtf8),
///   11 [`ValueNotUtf8`](Refusal::ValueNotUtf8) and
///   12 [`KeySeenBefore`](Refusal::KeySeenBefore), then
///   13 [`PairsTooLong`](Refusal::PairsTooLong);
/// - 33 [`PairInOldForm`](Refusal::PairInOldForm), if the form is old;
/// - of the keys 26 and 27 likewise,
///   38 [`NoEncryptedDataKey`](Refusal::NoEncryptedDataKey), and of each
///   16 [`ProviderIdNotUtf8`](Refusal::ProviderIdNotUtf8);
/// - 17 [`ContentType`](Refusal::ContentType);
/// - 19 [`IvLength`](Refusal::IvLength);
/// - 25 [`SuiteDataLength`](Refusal::SuiteDataLength);
/// - 20 [`FrameLength`](Refusal::FrameLength).
#[inline]
pub fn header_body_len(draft: &Draft<'_>) -> Result<usize, Refusal> {
    let numbers = draft.numbers.record();
    let (id, id_len) = (draft.message_id.as_ptr(), draft.message_id.len());
    let (data, data_len) = (draft.suite_data.as_ptr(), draft.suite_data.len());
    let (text, text_len) = (draft.text.as_ptr(), draft.text.len());
    let (pairs, pairs_len) = (draft.pairs.as_ptr(), draft.pairs.len());
    let (keys, keys_len) = (draft.keys.as_ptr(), draft.keys.len());
    let policy = draft.policy.map(Policy::number);
    // SAFETY: pointers and lengths are the slices', which are only read.
    length(unsafe {
        match policy {
            None => bafirolen_sys::bafirolen_header_body_len(
                numbers, id, id_len, data, data_len, text, text_len, pairs, pairs_len, keys,
                keys_len,
            ),
            Some(policy) => bafirolen_sys::bafirolen_header_body_len_under_policy(
                numbers, policy, id, id_len, data, data_len, text, text_len, pairs, pairs_len,
                keys, keys_len,
            ),
        }
    })
}

/// Writes the body of a draft to a vector of just its length: asks
/// [`header_body_len`], and lends an output of so many bytes to
/// [`write_header_body`](crate::write_header_body). It is there with the
/// feature `alloc`, which is on by default.
///
/// Memory that can't be had ends the program, as it does for any vector: where
/// a draft may want more than there is, ask for the length first.
///
/// ```
/// use bafirolen::{header_body_to_vec, Draft, Numbers, NON_FRAMED};
///
/// # fn main() -> Result<(), bafirolen::Refusal> {
/// let numbers = Numbers::version_2(0x0478, NON_FRAMED, 0);
/// let draft = Draft::new(numbers, &[7; 32])
///     .with_suite_data(&[8; 32])
///     .with_tables(b"p1a\xAA\xBB\xCC", &[], &[0, 2, 2, 1, 3, 3]); // a key, no pair
/// let body = header_body_to_vec(&draft)?;
/// assert_eq!(body.len(), 88);
/// assert_eq!(bafirolen::header_number(&body, 0), 0);
/// # Ok(())
/// # }
/// ```
///
/// # Errors
///
/// Those of [`header_body_len`]; so never 28.
#[cfg(feature = "alloc")]
pub fn header_body_to_vec(draft: &Draft<'_>) -> Result<alloc::vec::Vec<u8>, Refusal> {
    let mut out = alloc::vec![0; header_body_len(draft)?];
    // As long as what is written, all of which was tested when it was measured.
    crate::write_header_body(draft, &mut out)?;
    Ok(out)
}
