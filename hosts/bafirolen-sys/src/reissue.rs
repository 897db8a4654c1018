//! Drafts of version 1 turned into version 2. `include/bafirolen_reissue.h` has
//! the same for C.
//!
//! The draft is a header body of version 1 at `start`. Both functions first read
//! it, in version 1 only, tolerantly, with no maximum and without tables; then
//! they test 20 of it, and 6, 7, 24 and 25 of what is added.

use crate::BafirolenWritten;

extern "C" {
    /// Writes a body of version 2 with the suite, message ID and suite data that
    /// are handed in, and the draft's pairs, encrypted data keys, content type
    /// and frame length; an empty context in today's form. 4 where the body at
    /// `start` is of version 2, 28 where the output is too short.
    pub fn bafirolen_reissue_header_body(
        m: *const u8,
        m_len: usize,
        start: u64,
        suite: u32,
        message_id: *const u8,
        message_id_len: usize,
        suite_data: *const u8,
        suite_data_len: usize,
        out: *mut u8,
        out_len: usize,
    ) -> BafirolenWritten;

    /// The length of the body that [`bafirolen_reissue_header_body`] would
    /// write, or the first of its refusals but 28. Nothing is changed.
    pub fn bafirolen_reissued_header_body_len(
        m: *const u8,
        m_len: usize,
        start: u64,
        suite: u32,
        message_id: *const u8,
        message_id_len: usize,
        suite_data: *const u8,
        suite_data_len: usize,
    ) -> BafirolenWritten;
}
