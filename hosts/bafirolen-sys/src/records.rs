//! What the functions take and answer by value. `include/bafirolen_records.h`
//! has the same for C.

/// A section that was read, or frames.
#[repr(C)]
#[derive(Clone, Copy, Debug, PartialEq, Eq)]
#[must_use]
pub struct BafirolenSection {
    /// 0, or the refusal's number.
    pub number: u64,
    /// The position of a shortage.
    pub position: u64,
    /// How many pairs, keys or frames.
    pub count: u64,
    /// The place of the next byte.
    pub tail: u64,
}

/// An authentication record that was read.
#[repr(C)]
#[derive(Clone, Copy, Debug, PartialEq, Eq)]
#[must_use]
pub struct BafirolenAuth {
    /// 0, or the refusal's number.
    pub number: u64,
    /// The position of a shortage.
    pub position: u64,
    /// The place of the next byte.
    pub tail: u64,
    /// All 00 in version 2, which stores none.
    pub iv: [u8; 12],
    /// The tag.
    pub tag: [u8; 16],
}

/// The numbers among a body's fields, which a reader gives and a writer takes.
/// Each has 32 bits, so that a writer tests the number that it is handed: 257
/// is no version.
#[repr(C)]
#[derive(Clone, Copy, Debug, Default, PartialEq, Eq, Hash)]
pub struct BafirolenNumbers {
    /// 1 or 2.
    pub version: u32,
    /// 0x80 in version 1, 0 in version 2.
    pub message_type: u32,
    /// The algorithm suite.
    pub suite: u32,
    /// 1 non-framed, 2 framed.
    pub content_type: u32,
    /// 12 in version 1, 0 in version 2.
    pub header_iv_length: u32,
    /// Above 0 if the content is framed, else 0; a reader that is asked for one
    /// version does not test this.
    pub frame_length: u32,
    /// How an empty context is stored: 0 today's 00 00, 1 the old 00 02 00 00.
    /// A writer takes any number but 0 for old.
    pub form: u32,
}

/// A body that was read.
#[repr(C)]
#[derive(Clone, Copy, Debug, PartialEq, Eq)]
#[must_use]
pub struct BafirolenBody {
    /// 0, or the refusal's number.
    pub number: u64,
    /// The position of a shortage.
    pub position: u64,
    /// The fields that are numbers.
    pub numbers: BafirolenNumbers,
    /// The place of the message ID's first byte.
    pub message_id_start: u64,
    /// How many bytes the message ID has; the context section begins after
    /// them.
    pub message_id_len: u64,
    /// How many pairs the context has.
    pub pair_count: u64,
    /// How many encrypted data keys there are; of an accepted body, at least 1.
    pub key_count: u64,
    /// The place of the suite data's first byte; 0 in version 1.
    pub suite_data_start: u64,
    /// How many bytes the suite data have; 0 in version 1.
    pub suite_data_len: u64,
    /// The place of the next byte.
    pub tail: u64,
}

/// A value that was found: where its bytes stand in the message.
#[repr(C)]
#[derive(Clone, Copy, Debug, PartialEq, Eq)]
#[must_use]
pub struct BafirolenPlace {
    /// 0, or the refusal's number.
    pub number: u64,
    /// The position of a shortage.
    pub position: u64,
    /// The place of the first byte; an empty value has one too.
    pub start: u64,
    /// How many bytes.
    pub len: u64,
}

/// What was written or copied, or would be written; or a mended draft.
#[repr(C)]
#[derive(Clone, Copy, Debug, PartialEq, Eq)]
#[must_use]
pub struct BafirolenWritten {
    /// 0, or the refusal's number.
    pub number: u64,
    /// The position of a shortage.
    pub position: u64,
    /// How many bytes, from the first of the output or of the draft on.
    pub length: u64,
}
