//! Drafts mended in the buffer in which they stand. `include/bafirolen_drafts.h`
//! has the same for C.
//!
//! A draft is a header body at the first byte of a lent buffer, which may be
//! longer. Both functions first read it, in either version, tolerantly, with no
//! maximum and without tables. Accepted, the length of the answer is the tail
//! of the mended draft.

use crate::BafirolenWritten;

extern "C" {
    /// Drops all encrypted data keys with a provider ID, which may be any bytes
    /// and is compared whole. What stays closes up, the bytes freed up to the
    /// old tail are 00, and those behind it are left as they were. 40 where no
    /// key would remain.
    pub fn bafirolen_drop_encrypted_data_keys(
        draft: *mut u8,
        draft_len: usize,
        provider_id: *const u8,
        provider_id_len: usize,
    ) -> BafirolenWritten;

    /// Adds one encrypted data key behind the others. What stands behind the
    /// keys moves up, over the bytes behind the tail; those behind the new tail
    /// are left as they were. After the refusals of reading 16 of the provider
    /// ID, 27 and 28.
    pub fn bafirolen_add_encrypted_data_key(
        draft: *mut u8,
        draft_len: usize,
        provider_id: *const u8,
        provider_id_len: usize,
        provider_info: *const u8,
        provider_info_len: usize,
        ciphertext: *const u8,
        ciphertext_len: usize,
    ) -> BafirolenWritten;
}
