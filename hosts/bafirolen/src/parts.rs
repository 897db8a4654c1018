//! Pairs and keys as parts of the message that they were read from.

use crate::{Place, NUMBERS_PER_KEY, NUMBERS_PER_PAIR};
use core::fmt;
use core::iter::FusedIterator;
use core::slice::ChunksExact;

/// A pair of an encryption context. Both parts were found to be UTF-8, so
/// `core::str::from_utf8` can't fail on them.
#[derive(Clone, Copy, Debug, PartialEq, Eq, Hash)]
pub struct Pair<'m> {
    /// Its key; no two pairs of a context have the same.
    pub key: &'m [u8],
    /// Its value.
    pub value: &'m [u8],
}

/// An encrypted data key, as it was read, or as it is to be
/// [added](crate::add_encrypted_data_key). Of one that was read the provider ID
/// was found to be UTF-8, so `core::str::from_utf8` can't fail on it; the other
/// parts are any bytes.
#[derive(Clone, Copy, Debug, PartialEq, Eq, Hash)]
pub struct Key<'m> {
    /// Who provides the key.
    pub provider_id: &'m [u8],
    /// Which of the provider's keys it is.
    pub provider_info: &'m [u8],
    /// The data key, encrypted.
    pub ciphertext: &'m [u8],
}

/// The part of a message at the `nth` place of a table's entry.
#[inline]
pub(crate) fn part<'m>(message: &'m [u8], entry: &[u32], nth: usize) -> &'m [u8] {
    Place::new(entry[2 * nth].into(), entry[2 * nth + 1].into()).read(message)
}

/// The pairs of a context in their order.
#[derive(Clone)]
#[must_use = "iterators give nothing until they are asked"]
pub struct Pairs<'m, 't> {
    message: &'m [u8],
    entries: ChunksExact<'t, u32>,
}

/// The encrypted data keys of a header in their order.
#[derive(Clone)]
#[must_use = "iterators give nothing until they are asked"]
pub struct Keys<'m, 't> {
    message: &'m [u8],
    entries: ChunksExact<'t, u32>,
}

impl<'m, 't> Pairs<'m, 't> {
    /// Of a table that a reader filled from the message.
    #[inline]
    pub(crate) fn new(message: &'m [u8], table: &'t [u32]) -> Pairs<'m, 't> {
        let entries = table.chunks_exact(NUMBERS_PER_PAIR);
        Pairs { message, entries }
    }
}

impl<'m, 't> Keys<'m, 't> {
    /// Of a table that a reader filled from the message.
    #[inline]
    pub(crate) fn new(message: &'m [u8], table: &'t [u32]) -> Keys<'m, 't> {
        let entries = table.chunks_exact(NUMBERS_PER_KEY);
        Keys { message, entries }
    }
}

impl<'m> Iterator for Pairs<'m, '_> {
    type Item = Pair<'m>;

    #[inline]
    fn next(&mut self) -> Option<Pair<'m>> {
        let entry = self.entries.next()?;
        Some(Pair {
            key: part(self.message, entry, 0),
            value: part(self.message, entry, 1),
        })
    }

    #[inline]
    fn size_hint(&self) -> (usize, Option<usize>) {
        self.entries.size_hint()
    }
}

impl<'m> Iterator for Keys<'m, '_> {
    type Item = Key<'m>;

    #[inline]
    fn next(&mut self) -> Option<Key<'m>> {
        let entry = self.entries.next()?;
        Some(Key {
            provider_id: part(self.message, entry, 0),
            provider_info: part(self.message, entry, 1),
            ciphertext: part(self.message, entry, 2),
        })
    }

    #[inline]
    fn size_hint(&self) -> (usize, Option<usize>) {
        self.entries.size_hint()
    }
}

impl ExactSizeIterator for Pairs<'_, '_> {}
impl ExactSizeIterator for Keys<'_, '_> {}
impl FusedIterator for Pairs<'_, '_> {}
impl FusedIterator for Keys<'_, '_> {}

/// Shows the pairs that are still to come.
impl fmt::Debug for Pairs<'_, '_> {
    fn fmt(&self, f: &mut fmt::Formatter<'_>) -> fmt::Result {
        f.debug_list().entries(self.clone()).finish()
    }
}

/// Shows the keys that are still to come.
impl fmt::Debug for Keys<'_, '_> {
    fn fmt(&self, f: &mut fmt::Formatter<'_>) -> fmt::Result {
        f.debug_list().entries(self.clone()).finish()
    }
}
