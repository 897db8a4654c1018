//! The proved leaves as they cross the boundary to C: a lent slice is a
//! pointer and a length, a record is returned by value.
//!
//! None of the functions has a condition on its numbers. The pointers are the
//! caller's part, and the crate `leaves` sees to them.
#![no_std]

/// A number that was read; refusal 0 where it was accepted. What doesn't
/// apply is 0.
#[repr(C)]
#[derive(Clone, Copy, Debug, PartialEq, Eq)]
pub struct LeafNumber {
    pub refusal: u64,
    pub position: u64,
    pub value: u64,
    pub tail: u64,
}

/// A part that was read; refusal 0 where it was accepted. What doesn't apply
/// is 0.
#[repr(C)]
#[derive(Clone, Copy, Debug, PartialEq, Eq)]
pub struct LeafPart {
    pub refusal: u64,
    pub position: u64,
    pub start: u64,
    pub len: u64,
    pub tail: u64,
}

extern "C" {
    /// The version of the suite; 0 where there is none of that number.
    pub fn leaf_suite_version(number: u32) -> u8;

    pub fn leaf_read_u8(m: *const u8, m_len: usize, start: u64) -> LeafNumber;

    pub fn leaf_read_u16(m: *const u8, m_len: usize, start: u64) -> LeafNumber;

    pub fn leaf_read_u32(m: *const u8, m_len: usize, start: u64) -> LeafNumber;

    pub fn leaf_read_bytes(m: *const u8, m_len: usize, start: u64, n: u32) -> LeafPart;

    /// Where `has_end` is 0 there is no end, and `end` is not looked at; with
    /// any other number neither the entry's length nor its bytes may go past
    /// the place `end`.
    pub fn leaf_read_entry(
        m: *const u8,
        m_len: usize,
        start: u64,
        has_end: u32,
        end: u64,
    ) -> LeafPart;

    /// 1 where the part is UTF-8, 0 where it isn't, 3 where it lies outside m.
    pub fn leaf_is_utf8(m: *const u8, m_len: usize, start: u64, len: u64) -> u8;

    /// 1 where the parts are equal, 0 where not, 3 where one lies outside m.
    pub fn leaf_same_parts(
        m: *const u8,
        m_len: usize,
        a: u64,
        a_len: u64,
        b: u64,
        b_len: u64,
    ) -> u8;

    /// 0 where the first part is less, 1 equal, 2 greater, 3 where one lies
    /// outside m.
    pub fn leaf_compare_parts(
        m: *const u8,
        m_len: usize,
        a: u64,
        a_len: u64,
        b: u64,
        b_len: u64,
    ) -> u8;

    /// 1 where the entry was written, 0 where it can't be; the output is then
    /// as it was. The text and the output don't overlap.
    pub fn leaf_put_entry(
        text: *const u8,
        text_len: usize,
        start: u64,
        len: u64,
        out: *mut u8,
        out_len: usize,
        at: u64,
    ) -> u8;
}
