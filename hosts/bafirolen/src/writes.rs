//! Writing sections and bodies.

use crate::{Draft, Policy, Refusal};
use bafirolen_sys::BafirolenWritten;

/// The length of what was written, or would be: a `usize` of this platform has
/// as many bits.
#[inline]
pub(crate) fn length(record: BafirolenWritten) -> Result<usize, Refusal> {
    Refusal::test(record.number, record.position)?;
    Ok(record.length as usize)
}

/// Writes a context section of the table's pairs, whose places lie in `text`,
/// to the front of `out`; answers its length: 2 where there is no pair, else 4,
/// 4 for each pair, and their parts. All numbers of the table are taken, as
/// [`Draft`] says. A section alone has no form: an empty one is written 00 00,
/// however it was read.
///
/// If two lists of pairs, joined, are accepted, so is each of them, and what the
/// joined section has behind its first 4 bytes is what the first one's has there
/// and then what the second one's has; an empty one's has nothing there. A list
/// that is accepted is accepted in any other order, and its section is then as
/// long and begins with the same 4 bytes.
///
/// # Errors
///
/// In the order of the tests:
/// - 26 [`TableOrPlace`](Refusal::TableOrPlace);
/// - 27 [`CountOrPartTooLong`](Refusal::CountOrPartTooLong);
/// - of each pair 10 [`KeyNotUtf8`](Refusal::KeyNotUtf8),
///   11 [`ValueNotUtf8`](Refusal::ValueNotUtf8) and
///   12 [`KeySeenBefore`](Refusal::KeySeenBefore);
/// - 13 [`PairsTooLong`](Refusal::PairsTooLong);
/// - 28 [`OutputTooShort`](Refusal::OutputTooShort).
#[inline]
pub fn write_aad_section(text: &[u8], pairs: &[u32], out: &mut [u8]) -> Result<usize, Refusal> {
    // SAFETY: pointers and lengths are the slices'; `out` is borrowed alone,
    // so it overlaps neither.
    length(unsafe {
        bafirolen_sys::bafirolen_write_aad_section(
            text.as_ptr(),
            text.len(),
            pairs.as_ptr(),
            pairs.len(),
            out.as_mut_ptr(),
            out.len(),
        )
    })
}

/// Writes a section of the table's keys, whose places lie in `text`, to the
/// front of `out`; answers its length: 2, 6 for each key, and their parts. There
/// is at least one key. All numbers of the table are taken, as [`Draft`] says.
///
/// # Errors
///
/// In the order of the tests:
/// - 26 [`TableOrPlace`](Refusal::TableOrPlace);
/// - 27 [`CountOrPartTooLong`](Refusal::CountOrPartTooLong);
/// - 38 [`NoEncryptedDataKey`](Refusal::NoEncryptedDataKey);
/// - of each key 16 [`ProviderIdNotUtf8`](Refusal::ProviderIdNotUtf8);
/// - 28 [`OutputTooShort`](Refusal::OutputTooShort).
#[inline]
pub fn write_encrypted_data_keys_section(
    text: &[u8],
    keys: &[u32],
    out: &mut [u8],
) -> Result<usize, Refusal> {
    // SAFETY: as for `write_aad_section`.
    length(unsafe {
        bafirolen_sys::bafirolen_write_encrypted_data_keys_section(
            text.as_ptr(),
            text.len(),
            keys.as_ptr(),
            keys.len(),
            out.as_mut_ptr(),
            out.len(),
        )
    })
}

/// Writes the body of a draft to the front of `out`, an empty context in the
/// draft's form, under the draft's policy if it names one; answers its length,
/// which [`header_body_len`](crate::header_body_len) gives before. With its pairs
/// in another order a body that is accepted is accepted, as long, and the same but
/// for the bytes of those pairs.
///
/// # Errors
///
/// In the order of the tests:
/// - 3 [`UnknownVersion`](Refusal::UnknownVersion);
/// - 5 [`MessageType`](Refusal::MessageType);
/// - 6 [`UnknownSuite`](Refusal::UnknownSuite);
/// - 7 [`SuiteOfOtherVersion`](Refusal::SuiteOfOtherVersion);
/// - 39 [`ForbiddenByPolicy`](Refusal::ForbiddenByPolicy), if the draft names a
///   policy that does not write its version;
/// - 24 [`IdLength`](Refusal::IdLength);
/// - of the pairs 26 [`TableOrPlace`](Refusal::TableOrPlace),
///   27 [`CountOrPartTooLong`](Refusal::CountOrPartTooLong), of each
///   10 [`KeyNotUtf8`](Refusal::KeyNotUtf8),
///   11 [`ValueNotUtf8`](Refusal::ValueNotUtf8) and
///   12 [`KeySeenBefore`](Refusal::KeySeenBefore), then
///   13 [`PairsTooLong`](Refusal::PairsTooLong);
/// - 33 [`PairInOldForm`](Refusal::PairInOldForm), if the form is old;
/// - of the keys 26 and 27 likewise,
///   38 [`NoEncryptedDataKey`](Refusal::NoEncryptedDataKey), and of each
///   16 [`ProviderIdNotUtf8`](Refusal::ProviderIdNotUtf8);
/// - 17 [`ContentType`](Refusal::ContentType);
/// - 19 [`IvLength`](Refusal::IvLength);
/// - 25 [`SuiteDataLength`](Refusal::SuiteDataLength);
/// - 20 [`FrameLength`](Refusal::FrameLength);
/// - 28 [`OutputTooShort`](Refusal::OutputTooShort).
#[inline]
pub fn write_header_body(draft: &Draft<'_>, out: &mut [u8]) -> Result<usize, Refusal> {
    let numbers = draft.numbers.record();
    let (id, id_len) = (draft.message_id.as_ptr(), draft.message_id.len());
    let (data, data_len) = (draft.suite_data.as_ptr(), draft.suite_data.len());
    let (text, text_len) = (draft.text.as_ptr(), draft.text.len());
    let (pairs, pairs_len) = (draft.pairs.as_ptr(), draft.pairs.len());
    let (keys, keys_len) = (draft.keys.as_ptr(), draft.keys.len());
    let (out, out_len) = (out.as_mut_ptr(), out.len());
    let policy = draft.policy.map(Policy::number);
    // SAFETY: as for `write_aad_section`.
    length(unsafe {
        match policy {
            None => bafirolen_sys::bafirolen_write_header_body(
                numbers, id, id_len, data, data_len, text, text_len, pairs, pairs_len, keys,
                keys_len, out, out_len,
            ),
            Some(policy) => bafirolen_sys::bafirolen_write_header_body_under_policy(
                numbers, policy, id, id_len, data, data_len, text, text_len, pairs, pairs_len,
                keys, keys_len, out, out_len,
            ),
        }
    })
}
