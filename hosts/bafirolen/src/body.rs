//! Reading a header body.

use crate::request::max_asked;
use crate::{
    Draft, Keys, Numbers, Pairs, Place, Policy, Refusal, Request, NUMBERS_PER_KEY, NUMBERS_PER_PAIR,
};
use bafirolen_sys::BafirolenBody;
use core::fmt;

/// An accepted header body: its numbers and tail, and its parts as they lie in
/// the message that it was read from.
#[derive(Clone, Copy)]
#[non_exhaustive]
#[must_use]
pub struct Body<'m, 't> {
    /// Its fields that are numbers, and the form that it was read in. Type and
    /// IV length are 0 in version 2, which lacks them.
    pub numbers: Numbers,
    /// The place right after the body, where its authentication record begins.
    pub tail: u64,
    message: &'m [u8],
    message_id: Place,
    suite_data: Place,
    pairs: &'t [u32],
    pair_count: u64,
    keys: &'t [u32],
    key_count: u64,
}

impl<'m, 't> Body<'m, 't> {
    /// The message ID: 16 bytes in version 1, 32 in version 2.
    #[inline]
    #[must_use]
    pub fn message_id(&self) -> &'m [u8] {
        self.message_id.read(self.message)
    }

    /// The suite data: 32 bytes in version 2; empty in version 1, which has
    /// none.
    #[inline]
    #[must_use]
    pub fn suite_data(&self) -> &'m [u8] {
        self.suite_data.read(self.message)
    }

    /// Where the message ID stands.
    #[inline]
    #[must_use]
    pub fn message_id_place(&self) -> Place {
        self.message_id
    }

    /// Where the suite data stand; start 0 and length 0 in version 1.
    #[inline]
    #[must_use]
    pub fn suite_data_place(&self) -> Place {
        self.suite_data
    }

    /// Where the context section begins, which is right after the message ID:
    /// the start to give to [`find_value`](crate::find_value),
    /// [`find_bytes`](crate::find_bytes), [`find_part`](crate::find_part) and
    /// [`copy_value`](crate::copy_value).
    #[inline]
    #[must_use]
    pub fn context_start(&self) -> u64 {
        self.message_id.start + self.message_id.len
    }

    /// The pairs of the context in their order.
    #[inline]
    pub fn pairs(&self) -> Pairs<'m, 't> {
        Pairs::new(self.message, self.pair_table())
    }

    /// The encrypted data keys in their order, at least one.
    #[inline]
    pub fn keys(&self) -> Keys<'m, 't> {
        Keys::new(self.message, self.key_table())
    }

    /// What was filled of the pair table: [`NUMBERS_PER_PAIR`] numbers a
    /// pair. A writer takes it with the message as the text.
    #[inline]
    #[must_use]
    pub fn pair_table(&self) -> &'t [u32] {
        &self.pairs[..NUMBERS_PER_PAIR * self.pair_count as usize]
    }

    /// What was filled of the key table: [`NUMBERS_PER_KEY`] numbers a key. A
    /// writer takes it with the message as the text.
    #[inline]
    #[must_use]
    pub fn key_table(&self) -> &'t [u32] {
        &self.keys[..NUMBERS_PER_KEY * self.key_count as usize]
    }

    /// The draft to write this body again, in the form that it was read in,
    /// with the message as the text. Into an output that is long enough the
    /// writer then gives the bytes that were read, those from the start to
    /// [`tail`](Body::tail). (A reader of one version may give a frame length
    /// that the writer refuses by 20.) It names no policy, whatever policy the body
    /// was read under: [`under`](Draft::under) names one.
    ///
    /// ```
    /// use bafirolen::{read_header_body, write_header_body, Form, Request};
    ///
    /// # fn main() -> Result<(), bafirolen::Refusal> {
    /// // An old header, whose empty context is 00 02 00 00.
    /// let filed = b"\x01\x80\x01\x78\x00\x01\x02\x03\x04\x05\x06\x07\x08\x09\x0A\x0B\x0C\x0D\x0E\x0F\
    ///     \x00\x02\x00\x00\
    ///     \x00\x01\x00\x02p1\x00\x01a\x00\x03\xAA\xBB\xCC\
    ///     \x02\x00\x00\x00\x00\x0C\x00\x00\x10\x00";
    /// let (mut pairs, mut keys) = ([0; 40], [0; 60]); // up to ten of each
    /// let body = read_header_body(filed, 0, Request::default(), &mut pairs, &mut keys)?;
    /// assert_eq!(body.numbers.form, Form::Old);
    ///
    /// let mut out = [0; 48];
    /// let length = write_header_body(&body.draft(), &mut out)?;
    /// assert_eq!(out[..length], *filed);
    /// # Ok(())
    /// # }
    /// ```
    #[inline]
    pub fn draft<'a>(&self) -> Draft<'a>
    where
        'm: 'a,
        't: 'a,
    {
        Draft::new(self.numbers, self.message_id())
            .with_suite_data(self.suite_data())
            .with_tables(self.message, self.pair_table(), self.key_table())
    }
}

/// Shows the fields and not the whole message.
impl fmt::Debug for Body<'_, '_> {
    fn fmt(&self, f: &mut fmt::Formatter<'_>) -> fmt::Result {
        f.debug_struct("Body")
            .field("numbers", &self.numbers)
            .field("message_id", &self.message_id())
            .field("pairs", &self.pairs())
            .field("keys", &self.keys())
            .field("suite_data", &self.suite_data())
            .field("tail", &self.tail)
            .finish()
    }
}

/// Reads the body at `start`. The tables are filled with the places of its
/// pairs and keys, which the answer then borrows; beyond these they keep what
/// they held.
///
/// # Errors
///
/// In the order of the tests:
/// - 1 [`NotAddressable`](Refusal::NotAddressable);
/// - 2 [`Shortage`](Refusal::Shortage), where the next field is not all there;
///   the context section is awaited whole, once its length is read;
/// - 3 [`UnknownVersion`](Refusal::UnknownVersion);
/// - 4 [`OtherVersion`](Refusal::OtherVersion), if one version is asked for;
/// - 5 [`MessageType`](Refusal::MessageType), in version 1;
/// - 6 [`UnknownSuite`](Refusal::UnknownSuite);
/// - 7 [`SuiteOfOtherVersion`](Refusal::SuiteOfOtherVersion);
/// - 39 [`ForbiddenByPolicy`](Refusal::ForbiddenByPolicy), in version 1, if the
///   policy requires version 2 to be read;
/// - 32 [`PastSection`](Refusal::PastSection), of the count and of the length
///   and bytes of each key and value in turn;
/// - 8 [`CountInEmptyContext`](Refusal::CountInEmptyContext);
/// - 21 [`OldEmptyContext`](Refusal::OldEmptyContext), if strict;
/// - 9 [`NoCountInContext`](Refusal::NoCountInContext);
/// - of each pair 10 [`KeyNotUtf8`](Refusal::KeyNotUtf8),
///   11 [`ValueNotUtf8`](Refusal::ValueNotUtf8) and
///   12 [`KeySeenBefore`](Refusal::KeySeenBefore);
/// - 14 [`ContextLength`](Refusal::ContextLength);
/// - 38 [`NoEncryptedDataKey`](Refusal::NoEncryptedDataKey), as soon as the count
///   of keys is read;
/// - 15 [`TooManyKeys`](Refusal::TooManyKeys), if there is a maximum;
/// - of each key 16 [`ProviderIdNotUtf8`](Refusal::ProviderIdNotUtf8);
/// - 17 [`ContentType`](Refusal::ContentType);
/// - 18 [`ReservedBytes`](Refusal::ReservedBytes) and
///   19 [`IvLength`](Refusal::IvLength), in version 1;
/// - 20 [`FrameLength`](Refusal::FrameLength), if either version is asked for;
/// - 22 [`PairTableTooShort`](Refusal::PairTableTooShort);
/// - 23 [`KeyTableTooShort`](Refusal::KeyTableTooShort).
#[inline]
pub fn read_header_body<'m, 't>(
    message: &'m [u8],
    start: u64,
    request: Request,
    pairs: &'t mut [u32],
    keys: &'t mut [u32],
) -> Result<Body<'m, 't>, Refusal> {
    let record = record(message, start, request, pairs, keys);
    Refusal::test(record.number, record.position)?;
    Ok(Body {
        numbers: Numbers::of_record(record.numbers),
        tail: record.tail,
        message,
        message_id: Place::new(record.message_id_start, record.message_id_len),
        suite_data: Place::new(record.suite_data_start, record.suite_data_len),
        pairs,
        pair_count: record.pair_count,
        keys,
        key_count: record.key_count,
    })
}

/// What the archive answers.
#[inline]
fn record(
    message: &[u8],
    start: u64,
    request: Request,
    pairs: &mut [u32],
    keys: &mut [u32],
) -> BafirolenBody {
    let (which, mode) = (request.which.asked(), request.mode.asked());
    let (has_max, max) = max_asked(request.max);
    let policy = request.policy.map(Policy::number);
    let (m, m_len) = (message.as_ptr(), message.len());
    let (p, p_len) = (pairs.as_mut_ptr(), pairs.len());
    let (k, k_len) = (keys.as_mut_ptr(), keys.len());
    // SAFETY: pointers and lengths are the slices'; each table is borrowed
    // alone, so they overlap neither each other nor the message.
    unsafe {
        match policy {
            None => bafirolen_sys::bafirolen_read_header_body(
                m, m_len, start, which, mode, has_max, max, p, p_len, k, k_len,
            ),
            Some(policy) => bafirolen_sys::bafirolen_read_header_body_under_policy(
                m, m_len, start, which, mode, has_max, max, policy, p, p_len, k, k_len,
            ),
        }
    }
}
