//! Numbers of the format, and the lengths of tables.

/// How many numbers of a pair table one pair takes: key start, key length,
/// value start, value length.
pub const NUMBERS_PER_PAIR: usize = 4;

/// How many numbers of a key table one key takes: start and length of the
/// provider ID, of the provider info and of the ciphertext.
pub const NUMBERS_PER_KEY: usize = 6;

/// How many numbers of a table of frames one frame takes: start and length of
/// the IV, of the content and of the tag.
pub const NUMBERS_PER_FRAME: usize = 6;

/// A pair table of this length is never too short: a pair takes at least four
/// bytes, and all pairs together fewer than 65,534.
pub const LARGEST_PAIR_TABLE: usize = NUMBERS_PER_PAIR * 16_383;

/// A key table of this length is never too short: the count of keys has 16
/// bits.
pub const LARGEST_KEY_TABLE: usize = NUMBERS_PER_KEY * 65_535;

/// A table of this length holds whatever frames can stand in so many bytes:
/// those of the message from their start on, or all of them. A regular frame
/// takes 32 bytes and its content, the final one at least 40. No two arguments
/// overflow it.
///
/// ```
/// use bafirolen::frame_table_len;
///
/// assert_eq!(frame_table_len(1_000, 64), 6 * 11); // ten frames take 960
/// ```
#[inline]
#[must_use]
pub const fn frame_table_len(bytes: usize, frame_length: u32) -> usize {
    NUMBERS_PER_FRAME * (1 + bytes / (32 + frame_length as usize))
}

/// Bytes of stack that a call to read a context or a body, to find or copy a
/// value, to drop or add keys, or to reissue a draft, may take. This figure and
/// the four below were measured on the archive and rounded up, and a test holds
/// it to them; nothing proves them.
pub const STACK_READ: usize = 40_960;

/// Bytes of stack for key sections, authentication records and frames, read or
/// written, and for [`frames_len`](crate::frames_len).
pub const STACK_KEYS: usize = 1_024;

/// Bytes of stack for
/// [`write_only_authenticated`](crate::write_only_authenticated), which keeps
/// the order of the pairs there.
pub const STACK_ONLY_AUTHENTICATED: usize = 57_344;

/// Bytes of stack for [`header_number`](crate::header_number),
/// [`header_position`](crate::header_position) and
/// [`write_listing`](crate::write_listing), whose tables lie there.
pub const STACK_LISTED: usize = 73_728;

/// Bytes of stack to write a context or a body, and for
/// [`header_body_len`](crate::header_body_len).
pub const STACK_WRITE: usize = 143_360;

/// The type of a message, stored in version 1 only.
pub const V1_MESSAGE_TYPE: u32 = 0x80;

/// The content is in one piece; its frame length is 0.
pub const NON_FRAMED: u32 = 1;

/// The content is in frames; their length is above 0. (A reader that is asked
/// for one version does not test either.)
pub const FRAMED: u32 = 2;

/// How many bytes an IV has, in every suite.
pub const IV_LEN: usize = 12;

/// How many bytes a tag has, in every suite.
pub const TAG_LEN: usize = 16;

/// How many bytes the message ID of version 1 has.
pub const V1_MESSAGE_ID_LEN: usize = 16;

/// How many bytes the message ID of version 2 has.
pub const V2_MESSAGE_ID_LEN: usize = 32;

/// How many bytes the suite data of version 2 have; version 1 has none.
pub const V2_SUITE_DATA_LEN: usize = 32;
