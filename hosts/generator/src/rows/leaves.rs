//! Numbers, bytes and entries, read and written.

use super::{Place, Refused, Written};
use std::fmt::Debug;

/// Where a leaf is asked to read ten bytes.
const STARTS: [u64; 11] = [
    0,
    1,
    8,
    9,
    10,
    11,
    70,
    u32::MAX as u64,
    1 << 32,
    u64::MAX - 1,
    u64::MAX,
];

/// How much it is asked to read.
pub const LENGTHS: [u64; 9] = [0, 1, 2, 4, 9, 10, 11, 65_535, u64::MAX];

/// The ten bytes, which count themselves.
fn ten() -> Vec<u8> {
    (0..10).collect()
}

/// Reads of some lengths at every edge; `greatest` is the greatest start that
/// isn't refused by 1. `read` takes message, start and length.
pub fn bytes_at_every_edge(
    greatest: u64,
    lengths: &[u64],
    read: impl Fn(&[u8], u64, u64) -> Result<Place, Refused>,
) -> u64 {
    for start in STARTS {
        for &n in lengths {
            let end = u128::from(start) + u128::from(n);
            let wanted = if start > greatest {
                Err((1, 0))
            } else if end <= 10 {
                Ok((start, n))
            } else {
                // Saturated where 64 bits can't name the position.
                Err((2, u64::try_from(end).unwrap_or(u64::MAX)))
            };
            assert_eq!(read(&ten(), start, n), wanted, "{start} {n}");
        }
    }
    (STARTS.len() * lengths.len()) as u64
}

/// Numbers of 1, 2 and 4 bytes at every edge: value and tail. `read` takes
/// message, start and how many bytes.
pub fn numbers_at_every_edge(
    greatest: u64,
    read: impl Fn(&[u8], u64, usize) -> Result<(u64, u64), Refused>,
) -> u64 {
    const WIDTHS: [usize; 3] = [1, 2, 4];
    let message = ten();
    for start in STARTS {
        for n in WIDTHS {
            let tail = start.saturating_add(n as u64);
            let wanted = if start > greatest {
                Err((1, 0))
            } else if tail <= 10 {
                let stored = &message[start as usize..tail as usize];
                let value = stored
                    .iter()
                    .fold(0, |value, &byte| value << 8 | u64::from(byte));
                Ok((value, tail))
            } else {
                Err((2, tail))
            };
            assert_eq!(read(&message, start, n), wanted, "{start} {n}");
        }
    }
    (STARTS.len() * WIDTHS.len()) as u64
}

/// Entries without an end. `read` takes a message, a start and an end.
pub fn entries(read: impl Fn(&[u8], u64, Option<u64>) -> Result<Place, Refused>) -> u64 {
    let rows: [(&[u8], u64, Result<Place, u64>); 7] = [
        (&[0, 0], 0, Ok((2, 0))),
        (&[0, 2, 7, 7, 7], 0, Ok((2, 2))),
        (&[9, 0, 1, 7], 1, Ok((3, 1))),
        (&[0, 2, 7], 0, Err(4)),
        (&[0], 0, Err(2)),
        (&[0, 0], 1, Err(3)),
        (&[0xFF, 0xFF], 0, Err(65_537)),
    ];
    for (bytes, start, wanted) in rows {
        let wanted = wanted.map_err(|position| (2, position));
        assert_eq!(read(bytes, start, None), wanted, "{bytes:?}");
    }
    rows.len() as u64
}

/// Message, start, end, and the place or the refusal.
type Ended<'a> = (&'a [u8], u64, u64, Result<Place, Refused>);

const PAST: Result<Place, Refused> = Err((32, 0));
const GREATEST: u64 = u32::MAX as u64;

const ENDED: [Ended; 32] = [
    // The length ends past the end, at it and before it.
    (&[0, 0], 0, 0, PAST),
    (&[0, 0], 0, 1, PAST),
    (&[0, 0], 0, 2, Ok((2, 0))),
    (&[0, 0], 0, 3, Ok((2, 0))),
    // The bytes do.
    (&[0, 2, 7, 7, 7], 0, 2, PAST),
    (&[0, 2, 7, 7, 7], 0, 3, PAST),
    (&[0, 2, 7, 7, 7], 0, 4, Ok((2, 2))),
    (&[0, 2, 7, 7, 7], 0, 5, Ok((2, 2))),
    (&[9, 0, 1, 7], 1, 3, PAST),
    (&[9, 0, 1, 7], 1, 4, Ok((3, 1))),
    // An end at the start, and before it.
    (&[9, 0, 1, 7], 1, 1, PAST),
    (&[9, 0, 1, 7], 1, 0, PAST),
    // The length isn't there whole: its end is tested first.
    (&[], 0, 1, PAST),
    (&[], 0, 2, Err((2, 2))),
    (&[0], 0, 1, PAST),
    (&[0], 0, 2, Err((2, 2))),
    (&[0, 0], 1, 2, PAST),
    (&[0, 0], 1, 3, Err((2, 3))),
    (&[0, 0], 70, 71, PAST),
    (&[0, 0], 70, 72, Err((2, 72))),
    // The bytes aren't.
    (&[0, 5], 0, 2, PAST),
    (&[0, 5], 0, 6, PAST),
    (&[0, 5], 0, 7, Err((2, 7))),
    (&[0xFF, 0xFF], 0, 65_536, PAST),
    (&[0xFF, 0xFF], 0, 65_537, Err((2, 65_537))),
    // Ends that 32 bits don't keep.
    (&[0, 0], 0, 1 << 32, Ok((2, 0))),
    (&[0, 0], 0, u64::MAX, Ok((2, 0))),
    (&[0, 5], 0, 1 << 32, Err((2, 7))),
    (&[0, 5], 0, u64::MAX, Err((2, 7))),
    (&[0, 0], GREATEST, GREATEST + 1, PAST),
    (&[0, 0], GREATEST, GREATEST + 2, Err((2, GREATEST + 2))),
    (&[0, 0], GREATEST, u64::MAX, Err((2, GREATEST + 2))),
];

/// Entries with an end. `read` is that of `entries`.
pub fn entries_within(read: impl Fn(&[u8], u64, Option<u64>) -> Result<Place, Refused>) -> u64 {
    for (bytes, start, end, wanted) in ENDED {
        let what = format!("{bytes:?} at {start}, to {end}");
        assert_eq!(read(bytes, start, Some(end)), wanted, "{what}");
    }
    ENDED.len() as u64
}

/// Where a leaf is asked to write.
const PLACES: [u64; 9] = [0, 1, 5, 7, 8, 9, 1 << 32, u64::MAX - 1, u64::MAX];

/// What it is asked to write.
const PARTS: [&[u8]; 4] = [&[], &[1], &[1, 2, 3], &[0xAA; 9]];

/// A leaf that writes a part into eight bytes: those of `image` are there
/// afterwards, or 28 and none. `said` gives what the leaf says of an answer.
pub fn writes_keep_what_they_do_not_fill<A: PartialEq + Debug>(
    image: impl Fn(&[u8]) -> Vec<u8>,
    write: impl Fn(&mut [u8], u64, &[u8]) -> A,
    said: impl Fn(Written) -> A,
) -> u64 {
    let mut compared = 0;
    for at in PLACES {
        for part in PARTS {
            let image = image(part);
            let mut out = [0xEE; 8];
            let answer = write(&mut out, at, part);
            let end = u128::from(at) + image.len() as u128;
            let mut wanted = [0xEE; 8];
            if end <= 8 {
                wanted[at as usize..end as usize].copy_from_slice(&image);
                assert_eq!(answer, said(Ok(end as u64)));
            } else {
                assert_eq!(answer, said(Err((28, 0))));
            }
            assert_eq!(out, wanted);
            compared += 1;
        }
    }
    compared
}

/// An entry: its length, then the part.
pub fn entry(part: &[u8]) -> Vec<u8> {
    let mut entry = (part.len() as u16).to_be_bytes().to_vec();
    entry.extend_from_slice(part);
    entry
}

/// A part of 65,535 bytes is written, and one more is 27 and changes nothing.
pub fn the_longest_entry<A: PartialEq + Debug>(
    write: impl Fn(&mut [u8], u64, &[u8]) -> A,
    said: impl Fn(Written) -> A,
) -> u64 {
    let longest = vec![0; 65_535];
    let rows = [
        (longest.clone(), Ok(65_537)),
        (vec![1; 65_536], Err((27, 0))),
    ];
    let mut wanted = vec![0xEE; 70_000];
    wanted[..65_537].copy_from_slice(&entry(&longest));
    let mut out = vec![0xEE; 70_000];
    for (part, answer) in &rows {
        assert_eq!(write(&mut out, 0, part), said(*answer), "{}", part.len());
        assert!(out == wanted, "{}: the output", part.len());
    }
    rows.len() as u64
}
