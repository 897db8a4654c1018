//! Mending a body before it is sealed, in the buffer in which it stands.

use crate::writes::length;
use crate::{Key, Refusal};

/// Drops all encrypted data keys with a provider ID, such as those of a departed
/// station, from the draft at the front of a buffer; answers its new tail.
///
/// Such a draft is a header body, of either version, from the buffer's first
/// byte on: bytes, as [`write_header_body`](crate::write_header_body) leaves
/// them, and not the [`Draft`](crate::Draft) that these are written from. The
/// buffer may be longer; but where the body ends, only its own lengths and counts
/// say, so that one that breaks off is read on into whatever stands behind it. The
/// body is read tolerantly, with no maximum, and without tables, however many keys
/// it has.
///
/// The provider ID may be any bytes, and is compared whole: one that only begins
/// another is not that one, and one that is not UTF-8 is no key's. What stays
/// closes up in its order. The bytes that are freed, from the new tail up to the
/// old one, are 00, and those behind the old tail keep what they held. Where no
/// key has the ID nothing changes, and the answer is the tail. An empty context
/// in its old [`Form`](crate::Form) stays as it is.
///
/// ```
/// use bafirolen::{add_encrypted_data_key, drop_encrypted_data_keys, Key, Refusal};
///
/// # fn main() -> Result<(), Refusal> {
/// let front = b"\x01\x80\x01\x78\x00\x01\x02\x03\x04\x05\x06\x07\x08\x09\x0A\x0B\x0C\x0D\x0E\x0F\x00\x00";
/// let (gone, stays) = (b"\x00\x02p1\x00\x01a\x00\x03\xAA\xBB\xCC", b"\x00\x02p2\x00\x01b\x00\x00");
/// let back = b"\x02\x00\x00\x00\x00\x0C\x00\x00\x10\x00";
/// let mut draft = [&front[..], &[0, 2], gone, stays, back].concat();
///
/// let tail = drop_encrypted_data_keys(&mut draft, b"p1")?;
/// assert_eq!(draft[..tail], [&front[..], &[0, 1], stays, back].concat());
/// assert_eq!(draft[tail..], [0; 12]); // as long as the key that is gone
/// draft.truncate(tail); // the vector is just the draft again
///
/// // No key has this ID.
/// assert_eq!(drop_encrypted_data_keys(&mut draft, b"p"), Ok(tail));
/// // The last key stays, until there is another.
/// assert_eq!(drop_encrypted_data_keys(&mut draft, b"p2"), Err(Refusal::NoKeyRemains));
/// draft.resize(tail + 9, 0);
/// let key = Key { provider_id: b"p3", provider_info: b"c", ciphertext: b"" };
/// assert_eq!(add_encrypted_data_key(&mut draft, key), Ok(tail + 9));
/// assert_eq!(drop_encrypted_data_keys(&mut draft, b"p2"), Ok(tail));
/// # Ok(())
/// # }
/// ```
///
/// The keys of two IDs may be dropped in either order. If a key remains after
/// both, every byte of the buffer is then the same, and so is the second answer:
/// the draft with neither, 00 up to where the first one ended, and what was behind
/// that. The two may be the same, begin one another, or be no key's.
///
/// If none would remain, a call is refused by 40 in either order, and by no other
/// number. Where every key has one of the two, it is the call that was to drop that
/// one, first or second, or both calls where the two are the same, and the buffer
/// stays as it was. Where some keys have the one and all others the other, it is
/// the second call, and the keys that it was to drop are left.
///
/// ```
/// use bafirolen::{drop_encrypted_data_keys, Refusal};
///
/// # fn main() -> Result<(), Refusal> {
/// let front = b"\x01\x80\x01\x78\x00\x01\x02\x03\x04\x05\x06\x07\x08\x09\x0A\x0B\x0C\x0D\x0E\x0F\x00\x00";
/// let keys = b"\x00\x01p\x00\x00\x00\x01a\x00\x02p1\x00\x00\x00\x01b\x00\x02p2\x00\x00\x00\x01c";
/// let back = b"\x02\x00\x00\x00\x00\x0C\x00\x00\x10\x00";
/// let draft = [&front[..], &[0, 3], keys, back, b"rest"].concat();
///
/// let (mut one, mut other) = (draft.clone(), draft);
/// drop_encrypted_data_keys(&mut one, b"p")?;
/// let tail = drop_encrypted_data_keys(&mut one, b"p1")?;
/// drop_encrypted_data_keys(&mut other, b"p1")?;
/// assert_eq!(drop_encrypted_data_keys(&mut other, b"p"), Ok(tail));
/// assert_eq!(one, other);
/// # Ok(())
/// # }
/// ```
///
/// # Errors
///
/// Those of reading the body, and then one more, in the order of the tests:
/// - 1 [`NotAddressable`](Refusal::NotAddressable), where the buffer has more
///   than 4,294,967,295 bytes;
/// - 2 [`Shortage`](Refusal::Shortage), where the buffer ends before the body;
/// - 3 [`UnknownVersion`](Refusal::UnknownVersion);
/// - 5 [`MessageType`](Refusal::MessageType), in version 1;
/// - 6 [`UnknownSuite`](Refusal::UnknownSuite);
/// - 7 [`SuiteOfOtherVersion`](Refusal::SuiteOfOtherVersion);
/// - 32 [`PastSection`](Refusal::PastSection), of the count and of the length
///   and bytes of each key and value in turn;
/// - 8 [`CountInEmptyContext`](Refusal::CountInEmptyContext);
/// - 9 [`NoCountInContext`](Refusal::NoCountInContext);
/// - of each pair 10 [`KeyNotUtf8`](Refusal::KeyNotUtf8),
///   11 [`ValueNotUtf8`](Refusal::ValueNotUtf8) and
///   12 [`KeySeenBefore`](Refusal::KeySeenBefore);
/// - 14 [`ContextLength`](Refusal::ContextLength);
/// - 38 [`NoEncryptedDataKey`](Refusal::NoEncryptedDataKey);
/// - of each key 16 [`ProviderIdNotUtf8`](Refusal::ProviderIdNotUtf8);
/// - 17 [`ContentType`](Refusal::ContentType);
/// - 18 [`ReservedBytes`](Refusal::ReservedBytes) and
///   19 [`IvLength`](Refusal::IvLength), in version 1;
/// - 20 [`FrameLength`](Refusal::FrameLength);
/// - 40 [`NoKeyRemains`](Refusal::NoKeyRemains), where every key has that ID.
#[inline]
pub fn drop_encrypted_data_keys(draft: &mut [u8], provider_id: &[u8]) -> Result<usize, Refusal> {
    // SAFETY: pointers and lengths are the slices'; `draft` is borrowed alone,
    // so the provider ID does not lie in it.
    length(unsafe {
        bafirolen_sys::bafirolen_drop_encrypted_data_keys(
            draft.as_mut_ptr(),
            draft.len(),
            provider_id.as_ptr(),
            provider_id.len(),
        )
    })
}

/// Adds one encrypted data key, behind the others, to the draft at the front of a
/// buffer; answers its new tail. What a draft is, and how it is read,
/// [`drop_encrypted_data_keys`] says.
///
/// The key takes 6 bytes and its parts, each of which may be empty; another key
/// may have the same provider ID already. What stands behind the keys moves up by
/// as much, over what the buffer held behind the tail. The bytes behind the new
/// tail keep what they held. An empty context in its old
/// [`Form`](crate::Form) stays as it is.
///
/// ```
/// use bafirolen::{add_encrypted_data_key, read_header_body, Key, Refusal, Request};
///
/// # fn main() -> Result<(), Refusal> {
/// let draft = b"\x01\x80\x01\x78\x00\x01\x02\x03\x04\x05\x06\x07\x08\x09\x0A\x0B\x0C\x0D\x0E\x0F\
///     \x00\x00\x00\x01\x00\x02p1\x00\x01a\x00\x03\xAA\xBB\xCC\
///     \x02\x00\x00\x00\x00\x0C\x00\x00\x10\x00";
/// let key = Key { provider_id: b"p2", provider_info: b"b", ciphertext: &[0xDD] };
/// let mut buffer = [0; 56]; // 46 for the draft, 6 and 4 for the key
/// buffer[..46].copy_from_slice(draft);
///
/// let short = &mut buffer[..55];
/// assert_eq!(add_encrypted_data_key(short, key), Err(Refusal::OutputTooShort));
/// assert_eq!(add_encrypted_data_key(&mut buffer, key), Ok(56));
///
/// let (mut pairs, mut keys) = ([], [0; 12]);
/// let body = read_header_body(&buffer, 0, Request::default(), &mut pairs, &mut keys)?;
/// assert_eq!((body.tail, body.keys().len()), (56, 2));
/// assert_eq!(body.keys().last(), Some(key));
/// # Ok(())
/// # }
/// ```
///
/// # Errors
///
/// Those of reading the body, and then those of the key, in the order of the
/// tests:
/// - 1 [`NotAddressable`](Refusal::NotAddressable), where the buffer has more
///   than 4,294,967,295 bytes;
/// - 2 [`Shortage`](Refusal::Shortage), where the buffer ends before the body;
/// - 3 [`UnknownVersion`](Refusal::UnknownVersion);
/// - 5 [`MessageType`](Refusal::MessageType), in version 1;
/// - 6 [`UnknownSuite`](Refusal::UnknownSuite);
/// - 7 [`SuiteOfOtherVersion`](Refusal::SuiteOfOtherVersion);
/// - 32 [`PastSection`](Refusal::PastSection), of the count and of the length
///   and bytes of each key and value in turn;
/// - 8 [`CountInEmptyContext`](Refusal::CountInEmptyContext);
/// - 9 [`NoCountInContext`](Refusal::NoCountInContext);
/// - of each pair 10 [`KeyNotUtf8`](Refusal::KeyNotUtf8),
///   11 [`ValueNotUtf8`](Refusal::ValueNotUtf8) and
///   12 [`KeySeenBefore`](Refusal::KeySeenBefore);
/// - 14 [`ContextLength`](Refusal::ContextLength);
/// - 38 [`NoEncryptedDataKey`](Refusal::NoEncryptedDataKey);
/// - of each key of the draft
///   16 [`ProviderIdNotUtf8`](Refusal::ProviderIdNotUtf8);
/// - 17 [`ContentType`](Refusal::ContentType);
/// - 18 [`ReservedBytes`](Refusal::ReservedBytes) and
///   19 [`IvLength`](Refusal::IvLength), in version 1;
/// - 20 [`FrameLength`](Refusal::FrameLength);
/// - 16 [`ProviderIdNotUtf8`](Refusal::ProviderIdNotUtf8) of the key that is to
///   be added, however long its ID is;
/// - 27 [`CountOrPartTooLong`](Refusal::CountOrPartTooLong), where a part of it
///   is above 65,535 bytes, or the draft has 65,535 keys already;
/// - 28 [`OutputTooShort`](Refusal::OutputTooShort), where the longer draft
///   exceeds the buffer.
#[inline]
pub fn add_encrypted_data_key(draft: &mut [u8], key: Key<'_>) -> Result<usize, Refusal> {
    // SAFETY: as for `drop_encrypted_data_keys`.
    length(unsafe {
        bafirolen_sys::bafirolen_add_encrypted_data_key(
            draft.as_mut_ptr(),
            draft.len(),
            key.provider_id.as_ptr(),
            key.provider_id.len(),
            key.provider_info.as_ptr(),
            key.provider_info.len(),
            key.ciphertext.as_ptr(),
            key.ciphertext.len(),
        )
    })
}

/// Adds one encrypted data key, behind the others, to the draft that a vector
/// holds, and makes the vector as long as the longer draft: what stood in it
/// behind the draft is gone. It is there with the feature `alloc`, which is on by
/// default.
///
/// ```
/// use bafirolen::{add_encrypted_data_key_to_vec, header_position, Key};
///
/// # fn main() -> Result<(), bafirolen::Refusal> {
/// let mut draft = b"\x01\x80\x01\x78\x00\x01\x02\x03\x04\x05\x06\x07\x08\x09\x0A\x0B\x0C\x0D\x0E\x0F\
///     \x00\x00\x00\x01\x00\x02p1\x00\x01a\x00\x03\xAA\xBB\xCC\
///     \x02\x00\x00\x00\x00\x0C\x00\x00\x10\x00".to_vec();
/// let key = Key { provider_id: b"p2", provider_info: b"b", ciphertext: &[0xDD] };
/// add_encrypted_data_key_to_vec(&mut draft, key)?;
/// assert_eq!(draft.len(), 46 + 10);
/// assert_eq!(header_position(&draft, 0), 56);
/// # Ok(())
/// # }
/// ```
///
/// # Errors
///
/// Those of [`add_encrypted_data_key`] but 28, and 1 also where the vector would
/// have more than 4,294,967,295 bytes. It is then as it was.
#[cfg(feature = "alloc")]
pub fn add_encrypted_data_key_to_vec(
    draft: &mut alloc::vec::Vec<u8>,
    key: Key<'_>,
) -> Result<(), Refusal> {
    let held = draft.len();
    let tail = match add_encrypted_data_key(draft, key) {
        // The draft is whole, and just room is wanting. Room that is made
        // before this is known could complete a draft that breaks off.
        Err(Refusal::OutputTooShort) => {
            let parts = [key.provider_id, key.provider_info, key.ciphertext];
            let taken: usize = parts.iter().map(|part| 2 + part.len()).sum();
            draft.resize(held + taken, 0);
            add_encrypted_data_key(draft, key)
        }
        answer => answer,
    };
    draft.truncate(*tail.as_ref().unwrap_or(&held));
    tail.map(|_| ())
}
