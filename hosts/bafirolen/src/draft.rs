//! What a body is written from.

use crate::{Form, Policy, IV_LEN, V1_MESSAGE_TYPE};
use bafirolen_sys::BafirolenNumbers;

/// The fields of a body that are numbers, and its form, as the reader gives
/// them and the writer takes them. Each number has 32 bits, so that one that its
/// field can't hold is refused and never cut: 257 is no version.
#[derive(Clone, Copy, Debug, Default, PartialEq, Eq, Hash)]
#[non_exhaustive]
#[must_use]
pub struct Numbers {
    /// 1 or 2.
    pub version: u32,
    /// [`V1_MESSAGE_TYPE`] in version 1, 0 in version 2.
    pub message_type: u32,
    /// The algorithm suite. Version 1: 0x0014, 0x0046, 0x0078, 0x0114, 0x0146,
    /// 0x0178, 0x0214, 0x0346, 0x0378; version 2: 0x0478, 0x0578.
    pub suite: u32,
    /// [`NON_FRAMED`](crate::NON_FRAMED) or
    /// [`FRAMED`](crate::FRAMED).
    pub content_type: u32,
    /// [`IV_LEN`] in version 1, 0 in version 2.
    pub header_iv_length: u32,
    /// Above 0 if the content is framed, else 0; a reader of one version does
    /// not test this.
    pub frame_length: u32,
    /// How an empty context is stored.
    pub form: Form,
}

impl Numbers {
    /// Those of a header of version 1, with its type and IV length, in today's
    /// form.
    #[inline]
    pub const fn version_1(suite: u32, content_type: u32, frame_length: u32) -> Numbers {
        Numbers {
            version: 1,
            message_type: V1_MESSAGE_TYPE,
            suite,
            content_type,
            header_iv_length: IV_LEN as u32,
            frame_length,
            form: Form::Today,
        }
    }

    /// Those of a header of version 2, which has no type and stores no IV
    /// length, in today's form.
    #[inline]
    pub const fn version_2(suite: u32, content_type: u32, frame_length: u32) -> Numbers {
        Numbers {
            version: 2,
            message_type: 0,
            suite,
            content_type,
            header_iv_length: 0,
            frame_length,
            form: Form::Today,
        }
    }

    /// The same numbers, with this form.
    #[inline]
    pub const fn with_form(mut self, form: Form) -> Numbers {
        self.form = form;
        self
    }

    #[inline]
    pub(crate) fn of_record(record: BafirolenNumbers) -> Numbers {
        Numbers {
            version: record.version,
            message_type: record.message_type,
            suite: record.suite,
            content_type: record.content_type,
            header_iv_length: record.header_iv_length,
            frame_length: record.frame_length,
            form: Form::of_number(record.form),
        }
    }

    #[inline]
    pub(crate) fn record(self) -> BafirolenNumbers {
        BafirolenNumbers {
            version: self.version,
            message_type: self.message_type,
            suite: self.suite,
            content_type: self.content_type,
            header_iv_length: self.header_iv_length,
            frame_length: self.frame_length,
            form: self.form.number(),
        }
    }
}

/// What a body is written from. By default all of it is empty or 0, which the
/// writer refuses. A draft may be without pairs, and needs at least one
/// encrypted data key before it is written: without, it is refused by 38
/// ([`NoEncryptedDataKey`](crate::Refusal::NoEncryptedDataKey)). It may name a
/// commitment policy, which decides whether its version is written or refused by
/// 39, and nothing of what is written.
///
/// [`Body::draft`](crate::Body::draft) gives that of a body that was read.
///
/// All numbers of a table are taken: after reading, lend
/// [`pair_table`](crate::Body::pair_table) and
/// [`key_table`](crate::Body::key_table), and not the tables that the reader was
/// lent. Zeros at the end of these are places of length 0 and would be written
/// as empty pairs or keys.
///
/// A body takes 34 bytes in version 1 and 76 in version 2; where it has a pair
/// or is marked [`Old`](Form::Old), 2 more; 4 for each pair, 6 for each key, and
/// their parts. [`header_body_len`](crate::header_body_len) adds them up.
///
/// ```
/// use bafirolen::{write_header_body, Draft, Form, Numbers, Refusal, NON_FRAMED};
///
/// // Version 2, without pairs; a key is still to come.
/// let numbers = Numbers::version_2(0x0478, NON_FRAMED, 0);
/// let draft = Draft::new(numbers, &[7; 32]).with_suite_data(&[8; 32]);
/// let mut out = [0; 100];
/// assert_eq!(write_header_body(&draft, &mut out), Err(Refusal::NoEncryptedDataKey));
///
/// // With a key: "p1", "a" and AA BB CC.
/// let mut draft = draft.with_tables(b"p1a\xAA\xBB\xCC", &[], &[0, 2, 2, 1, 3, 3]);
/// assert_eq!(write_header_body(&draft, &mut out), Ok(88));
///
/// // The same, with the empty context as it was stored once.
/// draft.numbers.form = Form::Old;
/// assert_eq!(write_header_body(&draft, &mut out), Ok(90));
/// assert_eq!(out[35..39], [0, 2, 0, 0]);
/// ```
#[derive(Clone, Copy, Debug, Default, PartialEq, Eq, Hash)]
#[non_exhaustive]
#[must_use]
pub struct Draft<'a> {
    /// The fields that are numbers.
    pub numbers: Numbers,
    /// The message ID: 16 bytes in version 1, 32 in version 2.
    pub message_id: &'a [u8],
    /// The suite data: none in version 1, 32 bytes in version 2.
    pub suite_data: &'a [u8],
    /// What the places of both tables lie in. A message that was read is the
    /// text for the tables that were filled from it.
    pub text: &'a [u8],
    /// The pairs of the context, four numbers each: key start, key length,
    /// value start, value length.
    pub pairs: &'a [u32],
    /// The encrypted data keys, six numbers each: start and length of the
    /// provider ID, of the provider info and of the ciphertext. There is at least
    /// one, or the draft is refused by 38.
    pub keys: &'a [u32],
    /// The commitment policy that the body is written and measured under; `None`:
    /// no version is refused by 39.
    pub policy: Option<Policy>,
}

impl<'a> Draft<'a> {
    /// A draft without suite data, pairs and keys, and under no policy. Before it
    /// is written, it needs a key, which [`with_tables`](Draft::with_tables) gives
    /// it, and in version 2 suite data.
    #[inline]
    pub const fn new(numbers: Numbers, message_id: &'a [u8]) -> Draft<'a> {
        Draft {
            numbers,
            message_id,
            suite_data: &[],
            text: &[],
            pairs: &[],
            keys: &[],
            policy: None,
        }
    }

    /// The same draft, with these suite data.
    #[inline]
    pub const fn with_suite_data(mut self, suite_data: &'a [u8]) -> Draft<'a> {
        self.suite_data = suite_data;
        self
    }

    /// The same draft, with the pairs and keys at these places in the text.
    #[inline]
    pub const fn with_tables(
        mut self,
        text: &'a [u8],
        pairs: &'a [u32],
        keys: &'a [u32],
    ) -> Draft<'a> {
        self.text = text;
        self.pairs = pairs;
        self.keys = keys;
        self
    }

    /// The same draft, under this commitment policy: a version that it does not
    /// write is refused by 39. To name none again, set [`policy`](Draft::policy)
    /// to `None`.
    #[inline]
    pub const fn under(mut self, policy: Policy) -> Draft<'a> {
        self.policy = Some(policy);
        self
    }
}
