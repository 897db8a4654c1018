//! The records an exported read has to answer with.
//!
//! The exports are operations, so refusal 1 comes first; the leaves of
//! `reference` leave it to the operations above them, and it is put in front
//! of them here.

use leaves::{LeafNumber, LeafPart};
use reference::refusal::{GREATEST, TOO_LARGE};
use reference::{Place, Refusal};

/// What a leaf of `reference` answers, behind refusal 1.
fn operation<T>(
    message: &[u8],
    start: u64,
    leaf: impl FnOnce(&[u8], u64) -> Result<T, Refusal>,
) -> Result<T, Refusal> {
    if message.len() as u64 > GREATEST || start > GREATEST {
        return Err(Refusal::of(TOO_LARGE));
    }
    leaf(message, start)
}

fn number(answer: Result<(u64, u64), Refusal>) -> LeafNumber {
    match answer {
        Ok((value, tail)) => LeafNumber {
            refusal: 0,
            position: 0,
            value,
            tail,
        },
        Err(refusal) => LeafNumber {
            refusal: u64::from(refusal.number),
            position: refusal.position,
            value: 0,
            tail: 0,
        },
    }
}

fn part(answer: Result<Place, Refusal>) -> LeafPart {
    match answer {
        Ok(place) => LeafPart {
            refusal: 0,
            position: 0,
            start: place.start,
            len: place.len,
            tail: place.end(),
        },
        Err(refusal) => LeafPart {
            refusal: u64::from(refusal.number),
            position: refusal.position,
            start: 0,
            len: 0,
            tail: 0,
        },
    }
}

/// A leaf's number, widened.
fn wide<N: Into<u64>>(answer: Result<(N, u64), Refusal>) -> Result<(u64, u64), Refusal> {
    answer.map(|(value, tail)| (value.into(), tail))
}

pub fn read_u8(message: &[u8], start: u64) -> LeafNumber {
    number(operation(message, start, |m, s| {
        wide(reference::read_u8(m, s))
    }))
}

pub fn read_u16(message: &[u8], start: u64) -> LeafNumber {
    number(operation(message, start, |m, s| {
        wide(reference::read_u16(m, s))
    }))
}

pub fn read_u32(message: &[u8], start: u64) -> LeafNumber {
    number(operation(message, start, |m, s| {
        wide(reference::read_u32(m, s))
    }))
}

pub fn read_bytes(message: &[u8], start: u64, n: u32) -> LeafPart {
    part(operation(message, start, |m, s| {
        reference::read_bytes(m, s, u64::from(n))
    }))
}

pub fn read_entry(message: &[u8], start: u64, end: Option<u64>) -> LeafPart {
    part(operation(message, start, |m, s| {
        reference::read_entry(m, s, end)
    }))
}
