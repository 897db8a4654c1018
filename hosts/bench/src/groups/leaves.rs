//! The leaves, against std and the separate implementation.

use super::lists::ROTATION;
use crate::measure::versus;
use crate::samples;
use crate::table::Table;
use generator::random::Random;
use reference::{Place, Refusal};
use std::hint::black_box;
use std::str::from_utf8;

/// Inputs of the small rows, a power of two; enough to keep a branch
/// predictor from knowing them all.
const COUNT: usize = 1 << 12;
const LONG: usize = 1 << 16;
const SIZES: [usize; 4] = [5, 64, 1_024, 60_000];

pub fn rows(table: &mut Table) {
    utf8_words(table);
    utf8_texts(table);
    entry_reads(table);
    entry_writes(table);
    equality(table);
    order(table);
}

/// Texts of one size, each call another: a text read again and again would
/// be known to the branch predictor, as no message is.
fn utf8(table: &mut Table, what: &str, bytes: &[u8], size: usize) {
    assert!(from_utf8(bytes).is_ok());
    let count = bytes.len() / size;
    let start = |call: usize| call % count * size;
    let ours = |call| {
        leaves::is_utf8(
            black_box(bytes),
            (start(call) as u64, black_box(size) as u64),
        )
    };
    let part = |call| &black_box(bytes)[start(call)..start(call) + black_box(size)];
    let times = versus(ours, |call| from_utf8(part(call)).is_ok());
    table.row(what, "std::str::from_utf8", times);
    let times = versus(ours, |call| reference::is_utf8(part(call)));
    table.row(what, "reference", times);
}

fn utf8_words(table: &mut Table) {
    let kinds = [
        ("ASCII", samples::ASCII),
        ("French", samples::FRENCH),
        ("Japanese", samples::JAPANESE),
    ];
    for (kind, words) in kinds {
        let bytes = samples::texts(words, "", 12, COUNT);
        utf8(table, &format!("UTF-8, 12-byte words, {kind}"), &bytes, 12);
    }
}

fn utf8_texts(table: &mut Table) {
    let kinds = [
        ("ASCII", samples::ASCII, " "),
        ("French", samples::FRENCH, " "),
        ("Cyrillic", samples::CYRILLIC, " "),
        ("Japanese", samples::JAPANESE, ""),
        ("emoji", samples::EMOJI, ""),
    ];
    for (kind, words, between) in kinds {
        let bytes = samples::texts(words, between, LONG, ROTATION);
        utf8(table, &format!("UTF-8, 64 KB, {kind}"), &bytes, LONG);
    }
}

/// The end of an entry that was read, 0 for a refusal: a number to hand back,
/// as a record would be copied and the copy measured too.
fn our_end(part: leaves::LeafPart) -> u64 {
    if part.refusal == 0 {
        part.start + part.len
    } else {
        0
    }
}

fn their_end(part: Result<Place, Refusal>) -> u64 {
    part.map_or(0, Place::end)
}

/// The other implementation behind a call, as ours is: the difference to the
/// row without is what not being inlined costs.
#[inline(never)]
fn read_entry_called(message: &[u8], start: u64) -> Result<Place, Refusal> {
    reference::read_entry(message, start, None)
}

fn entry_reads(table: &mut Table) {
    let mut random = Random::new(2);
    let mut message = Vec::new();
    let mut starts = Vec::new();
    for _ in 0..COUNT {
        starts.push(message.len() as u64);
        let len = random.length(40);
        message.extend((len as u16).to_be_bytes());
        message.extend(random.bytes(len));
    }
    let start = |call: usize| starts[call % COUNT];
    let ours = |call| our_end(leaves::read_entry(black_box(&message), start(call), None));
    let times = versus(ours, |call| {
        their_end(reference::read_entry(
            black_box(&message),
            start(call),
            None,
        ))
    });
    table.row("entry read", "reference, inlined", times);
    let times = versus(ours, |call| {
        their_end(read_entry_called(black_box(&message), start(call)))
    });
    table.row("entry read", "reference, called", times);
    // As in a section that ends with the message.
    let end = || Some(black_box(message.len() as u64));
    let times = versus(
        |call| our_end(leaves::read_entry(black_box(&message), start(call), end())),
        |call| {
            their_end(reference::read_entry(
                black_box(&message),
                start(call),
                end(),
            ))
        },
    );
    table.row("entry read, within an end", "reference, inlined", times);
}

fn entry_writes(table: &mut Table) {
    for size in SIZES {
        let text = Random::new(3).bytes(ROTATION * size);
        let start = |call: usize| call % ROTATION * size;
        let mut out = vec![0; size + 2];
        let mut other = out.clone();
        let times = versus(
            |call| {
                let place = (start(call) as u64, black_box(size as u64));
                leaves::put_entry(black_box(&text), place, black_box(&mut out), 0)
            },
            |call| {
                let part = &black_box(&text)[start(call)..start(call) + black_box(size)];
                let (length, rest) = black_box(&mut other[..]).split_at_mut(2);
                length.copy_from_slice(&(part.len() as u16).to_be_bytes());
                rest[..part.len()].copy_from_slice(part);
            },
        );
        assert!(out == other);
        table.row(
            &format!("entry write, {size} bytes"),
            "copy_from_slice",
            times,
        );
    }
}

/// The same bytes twice, one copy behind the other; ten of them in a row.
fn twice(size: usize) -> Vec<u8> {
    let mut random = Random::new(4);
    (0..ROTATION)
        .flat_map(|_| random.bytes(size).repeat(2))
        .collect()
}

/// The places of the two copies.
fn copies(call: usize, size: usize) -> ((u64, u64), (u64, u64)) {
    let (at, size) = ((call % ROTATION * 2 * size) as u64, size as u64);
    ((at, size), (at + size, size))
}

/// The two copies.
fn halves(bytes: &[u8], call: usize, size: usize) -> (&[u8], &[u8]) {
    bytes[call % ROTATION * 2 * size..][..2 * size].split_at(size)
}

fn equality(table: &mut Table) {
    for size in SIZES {
        let bytes = twice(size);
        let times = versus(
            |call| {
                let (x, y) = copies(call, black_box(size));
                leaves::same_parts(black_box(&bytes), x, y)
            },
            |call| {
                let (x, y) = halves(black_box(&bytes), call, black_box(size));
                x == y
            },
        );
        table.row(&format!("equality, {size} bytes, equal"), "==", times);
    }
}

fn order(table: &mut Table) {
    for size in SIZES {
        let mut bytes = twice(size);
        // The last byte decides.
        for copies in bytes.chunks_exact_mut(2 * size) {
            copies[size - 1] ^= 1;
        }
        let times = versus(
            |call| {
                let (x, y) = copies(call, black_box(size));
                leaves::compare_parts(black_box(&bytes), x, y)
            },
            |call| {
                let (x, y) = halves(black_box(&bytes), call, black_box(size));
                x.cmp(y)
            },
        );
        let what = format!("comparison, {size} bytes, last differs");
        table.row(&what, "slice cmp", times);
    }
}
