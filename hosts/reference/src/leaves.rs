//! The leaves: bytes, big-endian integers and entries, read and written.
//!
//! Leaves don't test refusal 1, since every operation above them does. With a
//! start near 2^64 the position wanted may not fit 64 bits; it then saturates
//! at 2^64 - 1. The answer stays a shortage, as no message is that long.

use crate::refusal::{Refusal, OUTPUT, PAST_SECTION, TOO_MANY_OR_LONG};
use std::cmp::Ordering;

/// The greatest length an entry can store.
pub const ENTRY_MAX: u64 = u16::MAX as u64;

/// Where a part lies. An empty part starts where its bytes would.
#[derive(Clone, Copy, Debug, Default, PartialEq, Eq)]
pub struct Place {
    pub start: u64,
    pub len: u64,
}

impl Place {
    /// The place of the byte after the part.
    #[inline]
    pub fn end(self) -> u64 {
        self.start.saturating_add(self.len)
    }

    /// The part itself, if it lies inside `bytes`.
    pub fn within(self, bytes: &[u8]) -> Option<&[u8]> {
        let end = self.start.checked_add(self.len)?;
        if end > bytes.len() as u64 {
            return None;
        }
        Some(&bytes[self.start as usize..end as usize])
    }
}

/// `n` bytes at `start`, 0 included; a start past the end is a shortage.
#[inline]
pub fn read_bytes(message: &[u8], start: u64, n: u64) -> Result<Place, Refusal> {
    let end = start.saturating_add(n);
    if end > message.len() as u64 {
        return Err(Refusal::shortage(end));
    }
    Ok(Place { start, len: n })
}

/// The part at a place that a read has tested.
#[inline]
pub(crate) fn part(message: &[u8], place: Place) -> &[u8] {
    &message[place.start as usize..(place.start + place.len) as usize]
}

#[inline]
fn read_array<const N: usize>(message: &[u8], start: u64) -> Result<([u8; N], u64), Refusal> {
    let place = read_bytes(message, start, N as u64)?;
    let mut bytes = [0u8; N];
    bytes.copy_from_slice(part(message, place));
    Ok((bytes, place.end()))
}

/// One byte, and the tail.
#[inline]
pub fn read_u8(message: &[u8], start: u64) -> Result<(u8, u64), Refusal> {
    let ([byte], tail) = read_array::<1>(message, start)?;
    Ok((byte, tail))
}

/// A 16-bit integer, and the tail.
#[inline]
pub fn read_u16(message: &[u8], start: u64) -> Result<(u16, u64), Refusal> {
    let (bytes, tail) = read_array::<2>(message, start)?;
    Ok((u16::from_be_bytes(bytes), tail))
}

/// A 32-bit integer, and the tail.
#[inline]
pub fn read_u32(message: &[u8], start: u64) -> Result<(u32, u64), Refusal> {
    let (bytes, tail) = read_array::<4>(message, start)?;
    Ok((u32::from_be_bytes(bytes), tail))
}

/// Refusal 32: `n` bytes at `start` would end past `end`, whether or not the
/// message has them. The sum isn't cut to 64 bits, as no end lies beyond them.
#[inline]
pub(crate) fn test_end(start: u64, n: u64, end: u64) -> Result<(), Refusal> {
    match start.checked_add(n) {
        Some(part_end) if part_end <= end => Ok(()),
        _ => Err(Refusal::of(PAST_SECTION)),
    }
}

/// An entry's bytes; the tail is their end. With an end, that of the section
/// it stands in, neither its length nor its bytes may go past it: 32, 2 of the
/// length; 32, 2 of the bytes. Without one: 2; 2.
#[inline]
pub fn read_entry(message: &[u8], start: u64, end: Option<u64>) -> Result<Place, Refusal> {
    if let Some(end) = end {
        test_end(start, 2, end)?;
    }
    let (length, at) = read_u16(message, start)?;
    if let Some(end) = end {
        test_end(at, u64::from(length), end)?;
    }
    read_bytes(message, at, u64::from(length))
}

/// Copies `bytes` to the output at `at`; answers the place after them.
#[inline]
pub fn write_bytes(out: &mut [u8], at: u64, bytes: &[u8]) -> Result<u64, Refusal> {
    match at.checked_add(bytes.len() as u64) {
        Some(end) if end <= out.len() as u64 => {
            out[at as usize..end as usize].copy_from_slice(bytes);
            Ok(end)
        }
        _ => Err(Refusal::of(OUTPUT)),
    }
}

/// A 16-bit integer at `at`; answers the place after it.
pub fn write_u16(out: &mut [u8], at: u64, value: u16) -> Result<u64, Refusal> {
    write_bytes(out, at, &value.to_be_bytes())
}

/// A 32-bit integer at `at`; answers the place after it.
pub fn write_u32(out: &mut [u8], at: u64, value: u32) -> Result<u64, Refusal> {
    write_bytes(out, at, &value.to_be_bytes())
}

/// An entry at `at`; answers the place after it. The room is tested for the
/// whole entry first, so that a refusal leaves no length behind.
pub fn write_entry(out: &mut [u8], at: u64, bytes: &[u8]) -> Result<u64, Refusal> {
    if bytes.len() as u64 > ENTRY_MAX {
        return Err(Refusal::of(TOO_MANY_OR_LONG));
    }
    match at.checked_add(2 + bytes.len() as u64) {
        Some(end) if end <= out.len() as u64 => {
            put_entry(out, at as usize, bytes);
            Ok(end)
        }
        _ => Err(Refusal::of(OUTPUT)),
    }
}

/// Copies bytes where the room has been tested; answers the place after them.
#[inline]
pub(crate) fn put(out: &mut [u8], at: usize, bytes: &[u8]) -> usize {
    let end = at + bytes.len();
    out[at..end].copy_from_slice(bytes);
    end
}

/// An entry where the length and the room have been tested.
#[inline]
pub(crate) fn put_entry(out: &mut [u8], at: usize, bytes: &[u8]) -> usize {
    let at = put(out, at, &(bytes.len() as u16).to_be_bytes());
    put(out, at, bytes)
}

/// Whether two parts hold the same bytes. A part that begins the other but is
/// shorter is not equal to it.
#[inline]
pub fn equal_parts(a: &[u8], b: &[u8]) -> bool {
    a == b
}

/// Byte by byte; a part that begins the other comes before it.
#[inline]
pub fn compare_parts(a: &[u8], b: &[u8]) -> Ordering {
    a.cmp(b)
}
