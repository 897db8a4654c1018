//! The proved operations as they cross the boundary to C: a lent slice is a
//! pointer and a length, a record is passed and returned by value.
//! `include/bafirolen.h`, `include/bafirolen_policy.h`,
//! `include/bafirolen_drafts.h` and `include/bafirolen_reissue.h` have the same
//! declarations for C; the crate `bafirolen` has safe functions over these.
//!
//! # Safety
//!
//! None of the functions has a condition on its numbers. The pointers are the
//! caller's part: each is aligned and good for its length, counted in
//! elements, where that is not 0 (a part of length 0 takes any pointer, null
//! included), and what is lent to be changed overlaps nothing else that the
//! same call is lent. Nothing is kept after a call.
//!
//! # Answers
//!
//! A record's `number` is 0 where the input was accepted. Otherwise it is the
//! refusal's, all else in the record but the position is 0, and what was lent
//! is as it was. The position is 0 but for number 2, a shortage, where it is
//! how many bytes the message would have to have.
//!
//! The archive holds x86-64 code for Linux.
#![no_std]
#![deny(missing_docs)]

mod drafts;
mod policy;
mod records;
mod reissue;

pub use drafts::*;
pub use policy::*;
pub use records::{
    BafirolenAuth, BafirolenBody, BafirolenNumbers, BafirolenPlace, BafirolenSection,
    BafirolenWritten,
};
pub use reissue::*;

/// The declarations here are those of an archive whose [`bafirolen_version`]
/// answers this. A host of version 9 knows no refusal 40.
pub const VERSION: u32 = 11;

extern "C" {
    /// Which declarations the archive was made for.
    pub fn bafirolen_version() -> u32;

    /// Reads the context section at `start`. Mode 0: tolerant; any other:
    /// strict. The table is filled with four numbers a pair.
    pub fn bafirolen_read_aad_section(
        m: *const u8,
        m_len: usize,
        start: u64,
        mode: u32,
        table: *mut u32,
        table_len: usize,
    ) -> BafirolenSection;

    /// Reads the section of encrypted data keys at `start`, which has at least
    /// one. has_max 0: no maximum; any other: at most `max` keys. The table is
    /// filled with six numbers a key.
    pub fn bafirolen_read_encrypted_data_keys_section(
        m: *const u8,
        m_len: usize,
        start: u64,
        has_max: u32,
        max: u64,
        table: *mut u32,
        table_len: usize,
    ) -> BafirolenSection;

    /// Reads the body at `start`. which 1: version 1 only; 2: version 2 only;
    /// any other: either version. Mode, maximum and tables as for the
    /// sections.
    pub fn bafirolen_read_header_body(
        m: *const u8,
        m_len: usize,
        start: u64,
        which: u32,
        mode: u32,
        has_max: u32,
        max: u64,
        pairs: *mut u32,
        pairs_len: usize,
        keys: *mut u32,
        keys_len: usize,
    ) -> BafirolenBody;

    /// Reads the authentication record of a suite at `start`.
    pub fn bafirolen_read_header_auth_tag(
        m: *const u8,
        m_len: usize,
        start: u64,
        suite: u32,
    ) -> BafirolenAuth;

    /// Reads the frames of a length at `start`, the final one included. The
    /// table is filled with six numbers a frame.
    pub fn bafirolen_read_frames(
        m: *const u8,
        m_len: usize,
        start: u64,
        frame_length: u32,
        table: *mut u32,
        table_len: usize,
    ) -> BafirolenSection;

    /// Finds the value of a key in the context section at `start`, read
    /// tolerantly.
    pub fn bafirolen_find_value(
        m: *const u8,
        m_len: usize,
        start: u64,
        key: *const u8,
        key_len: usize,
    ) -> BafirolenPlace;

    /// Copies the value that [`bafirolen_find_value`] finds.
    pub fn bafirolen_copy_value(
        m: *const u8,
        m_len: usize,
        start: u64,
        key: *const u8,
        key_len: usize,
        out: *mut u8,
        out_len: usize,
    ) -> BafirolenWritten;

    /// 0 where the header at the start is accepted, else the refusal's number;
    /// read in either version, tolerantly, with no maximum and tables of 4,096
    /// numbers.
    pub fn bafirolen_header_number(m: *const u8, m_len: usize, start: u64) -> u32;

    /// The tail where the header is accepted, else the refusal's position.
    pub fn bafirolen_header_position(m: *const u8, m_len: usize, start: u64) -> u64;

    /// Writes the listing of the header at the front, or of its refusal.
    pub fn bafirolen_write_listing(
        m: *const u8,
        m_len: usize,
        out: *mut u8,
        out_len: usize,
    ) -> BafirolenWritten;

    /// Writes the context section of the pairs at a table's places in the
    /// text.
    pub fn bafirolen_write_aad_section(
        text: *const u8,
        text_len: usize,
        pairs: *const u32,
        pairs_len: usize,
        out: *mut u8,
        out_len: usize,
    ) -> BafirolenWritten;

    /// Writes the section of the encrypted data keys, at least one, at a
    /// table's places in the text.
    pub fn bafirolen_write_encrypted_data_keys_section(
        text: *const u8,
        text_len: usize,
        keys: *const u32,
        keys_len: usize,
        out: *mut u8,
        out_len: usize,
    ) -> BafirolenWritten;

    /// Writes the authentication record of a suite. Version 2 asks for an IV
    /// of 12 bytes too, and ignores them.
    pub fn bafirolen_write_header_auth_tag(
        suite: u32,
        iv: *const u8,
        iv_len: usize,
        tag: *const u8,
        tag_len: usize,
        out: *mut u8,
        out_len: usize,
    ) -> BafirolenWritten;

    /// Writes a body in the form that its numbers have. Pairs and keys have
    /// their places in one text; message ID and suite data are bytes of their
    /// own.
    pub fn bafirolen_write_header_body(
        numbers: BafirolenNumbers,
        message_id: *const u8,
        message_id_len: usize,
        suite_data: *const u8,
        suite_data_len: usize,
        text: *const u8,
        text_len: usize,
        pairs: *const u32,
        pairs_len: usize,
        keys: *const u32,
        keys_len: usize,
        out: *mut u8,
        out_len: usize,
    ) -> BafirolenWritten;

    /// The length of the body that [`bafirolen_write_header_body`] would write,
    /// or the first of its refusals but 28. Nothing is changed.
    pub fn bafirolen_header_body_len(
        numbers: BafirolenNumbers,
        message_id: *const u8,
        message_id_len: usize,
        suite_data: *const u8,
        suite_data_len: usize,
        text: *const u8,
        text_len: usize,
        pairs: *const u32,
        pairs_len: usize,
        keys: *const u32,
        keys_len: usize,
    ) -> BafirolenWritten;

    /// Writes the frames at a table's places in the text, six numbers a frame;
    /// the last becomes the final one.
    pub fn bafirolen_write_frames(
        frame_length: u32,
        text: *const u8,
        text_len: usize,
        frames: *const u32,
        frames_len: usize,
        out: *mut u8,
        out_len: usize,
    ) -> BafirolenWritten;

    /// The length of the frames that [`bafirolen_write_frames`] would write, or
    /// the first of its refusals but 28. Nothing is changed.
    pub fn bafirolen_frames_len(
        frame_length: u32,
        text: *const u8,
        text_len: usize,
        frames: *const u32,
        frames_len: usize,
    ) -> BafirolenWritten;

    /// Writes, of the context section at `start`, read tolerantly, the pairs
    /// with the keys at a table's places in the text, sorted by their keys.
    pub fn bafirolen_write_only_authenticated(
        m: *const u8,
        m_len: usize,
        start: u64,
        text: *const u8,
        text_len: usize,
        required: *const u32,
        required_len: usize,
        out: *mut u8,
        out_len: usize,
    ) -> BafirolenWritten;
}
