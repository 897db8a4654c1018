//! Reading one section on its own.

use crate::request::max_asked;
use crate::{Keys, Mode, Pairs, Refusal, NUMBERS_PER_KEY, NUMBERS_PER_PAIR};
use core::fmt;

/// An accepted context section.
#[derive(Clone, Copy)]
#[non_exhaustive]
#[must_use]
pub struct Context<'m, 't> {
    /// The place right after the section.
    pub tail: u64,
    message: &'m [u8],
    table: &'t [u32],
    count: u64,
}

/// An accepted section of encrypted data keys, of which it has at least one.
#[derive(Clone, Copy)]
#[non_exhaustive]
#[must_use]
pub struct KeySection<'m, 't> {
    /// The place right after the section.
    pub tail: u64,
    message: &'m [u8],
    table: &'t [u32],
    count: u64,
}

impl<'m, 't> Context<'m, 't> {
    /// The pairs in their order.
    #[inline]
    pub fn pairs(&self) -> Pairs<'m, 't> {
        Pairs::new(self.message, self.pair_table())
    }

    /// What was filled of the table: [`NUMBERS_PER_PAIR`] numbers a pair. A
    /// writer takes it with the message as the text.
    #[inline]
    #[must_use]
    pub fn pair_table(&self) -> &'t [u32] {
        &self.table[..NUMBERS_PER_PAIR * self.count as usize]
    }
}

impl<'m, 't> KeySection<'m, 't> {
    /// The keys in their order.
    #[inline]
    pub fn keys(&self) -> Keys<'m, 't> {
        Keys::new(self.message, self.key_table())
    }

    /// What was filled of the table: [`NUMBERS_PER_KEY`] numbers a key. A
    /// writer takes it with the message as the text.
    #[inline]
    #[must_use]
    pub fn key_table(&self) -> &'t [u32] {
        &self.table[..NUMBERS_PER_KEY * self.count as usize]
    }
}

/// Shows the pairs and not the whole message.
impl fmt::Debug for Context<'_, '_> {
    fn fmt(&self, f: &mut fmt::Formatter<'_>) -> fmt::Result {
        f.debug_struct("Context")
            .field("pairs", &self.pairs())
            .field("tail", &self.tail)
            .finish()
    }
}

/// Shows the keys and not the whole message.
impl fmt::Debug for KeySection<'_, '_> {
    fn fmt(&self, f: &mut fmt::Formatter<'_>) -> fmt::Result {
        f.debug_struct("KeySection")
            .field("keys", &self.keys())
            .field("tail", &self.tail)
            .finish()
    }
}

/// Reads the context section at `start`. The table is filled with the places
/// of its pairs, which the answer then borrows; beyond these it keeps what it
/// held.
///
/// # Errors
///
/// In the order of the tests:
/// - 1 [`NotAddressable`](Refusal::NotAddressable);
/// - 2 [`Shortage`](Refusal::Shortage), where the next field is not all there;
/// - 32 [`PastSection`](Refusal::PastSection), of the count and of the length
///   and bytes of each key and value in turn;
/// - 8 [`CountInEmptyContext`](Refusal::CountInEmptyContext);
/// - 21 [`OldEmptyContext`](Refusal::OldEmptyContext), if strict;
/// - 9 [`NoCountInContext`](Refusal::NoCountInContext);
/// - of each pair 10 [`KeyNotUtf8`](Refusal::KeyNotUtf8),
///   11 [`ValueNotUtf8`](Refusal::ValueNotUtf8) and
///   12 [`KeySeenBefore`](Refusal::KeySeenBefore);
/// - 14 [`ContextLength`](Refusal::ContextLength);
/// - 22 [`PairTableTooShort`](Refusal::PairTableTooShort).
#[inline]
pub fn read_aad_section<'m, 't>(
    message: &'m [u8],
    start: u64,
    mode: Mode,
    pairs: &'t mut [u32],
) -> Result<Context<'m, 't>, Refusal> {
    // SAFETY: pointers and lengths are the slices'; `pairs` is borrowed
    // alone, so it doesn't overlap the message.
    let record = unsafe {
        bafirolen_sys::bafirolen_read_aad_section(
            message.as_ptr(),
            message.len(),
            start,
            mode.asked(),
            pairs.as_mut_ptr(),
            pairs.len(),
        )
    };
    Refusal::test(record.number, record.position)?;
    Ok(Context {
        tail: record.tail,
        message,
        table: pairs,
        count: record.count,
    })
}

/// Reads the section of encrypted data keys at `start`, of at most `max` keys
/// where that is given. The table is filled with the places of the keys'
/// parts, which the answer then borrows; beyond these it keeps what it held.
///
/// # Errors
///
/// In the order of the tests:
/// - 1 [`NotAddressable`](Refusal::NotAddressable);
/// - 2 [`Shortage`](Refusal::Shortage), where the next field is not all there;
/// - 38 [`NoEncryptedDataKey`](Refusal::NoEncryptedDataKey), as soon as the
///   count is read;
/// - 15 [`TooManyKeys`](Refusal::TooManyKeys), before any key is read;
/// - of each key 16 [`ProviderIdNotUtf8`](Refusal::ProviderIdNotUtf8);
/// - 23 [`KeyTableTooShort`](Refusal::KeyTableTooShort).
#[inline]
pub fn read_encrypted_data_keys_section<'m, 't>(
    message: &'m [u8],
    start: u64,
    max: Option<u64>,
    keys: &'t mut [u32],
) -> Result<KeySection<'m, 't>, Refusal> {
    let (has_max, max) = max_asked(max);
    // SAFETY: as for `read_aad_section`.
    let record = unsafe {
        bafirolen_sys::bafirolen_read_encrypted_data_keys_section(
            message.as_ptr(),
            message.len(),
            start,
            has_max,
            max,
            keys.as_mut_ptr(),
            keys.len(),
        )
    };
    Refusal::test(record.number, record.position)?;
    Ok(KeySection {
        tail: record.tail,
        message,
        table: keys,
        count: record.count,
    })
}
