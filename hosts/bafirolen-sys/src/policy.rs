//! Bodies under a commitment policy. `include/bafirolen_policy.h` has the same
//! for C.
//!
//! A policy is a number, of which each lets some versions be read and some be
//! written. A version that it forbids is refused by 39, right after 7; in all
//! else the functions answer as those without a policy.

use crate::{BafirolenBody, BafirolenNumbers, BafirolenWritten};

/// Versions 1 and 2 are read and written: the functions here answer as those
/// without a policy do.
pub const NO_POLICY: u32 = 0;

/// Both versions are read, and version 1 is written.
pub const FORBID_ENCRYPT_ALLOW_DECRYPT: u32 = 1;

/// Both versions are read, and version 2 is written.
pub const REQUIRE_ENCRYPT_ALLOW_DECRYPT: u32 = 2;

/// Version 2 is read and written. Any number that is not named here stands for
/// this one, which reads least.
pub const REQUIRE_ENCRYPT_REQUIRE_DECRYPT: u32 = 3;

extern "C" {
    /// Reads the body at `start` under a policy; all else as for
    /// [`bafirolen_read_header_body`](crate::bafirolen_read_header_body).
    pub fn bafirolen_read_header_body_under_policy(
        m: *const u8,
        m_len: usize,
        start: u64,
        which: u32,
        mode: u32,
        has_max: u32,
        max: u64,
        policy: u32,
        pairs: *mut u32,
        pairs_len: usize,
        keys: *mut u32,
        keys_len: usize,
    ) -> BafirolenBody;

    /// Writes a body under a policy; all else as for
    /// [`bafirolen_write_header_body`](crate::bafirolen_write_header_body).
    pub fn bafirolen_write_header_body_under_policy(
        numbers: BafirolenNumbers,
        policy: u32,
        message_id: *const u8,
        message_id_len: usize,
        suite_data: *const u8,
        suite_data_len: usize,
        text: *const u8,
        text_len: usize,
        pairs: *const u32,
        pairs_len: usize,
        keys: *const u32,
        keys_len: usize,
        out: *mut u8,
        out_len: usize,
    ) -> BafirolenWritten;

    /// The length of the body that [`bafirolen_write_header_body_under_policy`]
    /// would write, or the first of its refusals but 28. Nothing is changed.
    pub fn bafirolen_header_body_len_under_policy(
        numbers: BafirolenNumbers,
        policy: u32,
        message_id: *const u8,
        message_id_len: usize,
        suite_data: *const u8,
        suite_data_len: usize,
        text: *const u8,
        text_len: usize,
        pairs: *const u32,
        pairs_len: usize,
        keys: *const u32,
        keys_len: usize,
    ) -> BafirolenWritten;
}
