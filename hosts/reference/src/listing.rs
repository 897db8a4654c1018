//! What the listing program prints, and what a host is told.

use crate::body::{read_header_body, Body, Which};
use crate::context::Mode;
use crate::leaves::{part, put};
use crate::refusal::{Refusal, OUTPUT};
use crate::tables::{text_part, NUMBERS_A_KEY, NUMBERS_A_PAIR};

/// The listing program reads this many bytes at most and ignores the rest.
pub const INPUT_MAX: usize = 65_536;

/// The numbers in each of the listing's tables.
pub const TABLE: usize = 4_096;

/// What the program prints when a message is given on standard input.
pub fn listing(message: &[u8]) -> Vec<u8> {
    listing_of(&message[..message.len().min(INPUT_MAX)])
}

/// Writes the listing of a message, taken whole, from the output's first
/// byte; answers its length. 28.
pub fn write_listing(message: &[u8], out: &mut [u8]) -> Result<u64, Refusal> {
    let text = listing_of(message);
    if text.len() > out.len() {
        return Err(Refusal::of(OUTPUT));
    }
    Ok(put(out, 0, &text) as u64)
}

/// The listing of a message, taken whole.
fn listing_of(message: &[u8]) -> Vec<u8> {
    let mut pairs = [0u32; TABLE];
    let mut keys = [0u32; TABLE];
    let mut out = Vec::new();
    match read_as_listing(message, 0, &mut pairs, &mut keys) {
        Ok(body) => list(&mut out, message, &body, &pairs, &keys),
        Err(refusal) => {
            word(&mut out, "refused");
            decimal(&mut out, u64::from(refusal.number));
            decimal(&mut out, refusal.position);
            out.push(b'\n');
        }
    }
    out
}

/// What a host program is told of bytes and a start: the refusal's number and
/// position, or number 0 and the tail. The bytes are taken whole: the limit
/// above is that of reading standard input.
pub fn host_answer(message: &[u8], start: u64) -> (u32, u64) {
    let mut pairs = [0u32; TABLE];
    let mut keys = [0u32; TABLE];
    match read_as_listing(message, start, &mut pairs, &mut keys) {
        Ok(body) => (0, body.tail),
        Err(refusal) => (refusal.number, refusal.position),
    }
}

fn read_as_listing(
    message: &[u8],
    start: u64,
    pairs: &mut [u32; TABLE],
    keys: &mut [u32; TABLE],
) -> Result<Body, Refusal> {
    read_header_body(
        message,
        start,
        Which::Either,
        Mode::Tolerant,
        None,
        pairs,
        keys,
    )
}

fn list(out: &mut Vec<u8>, message: &[u8], body: &Body, pairs: &[u32], keys: &[u32]) {
    word(out, "header");
    decimal(out, u64::from(body.version));
    hexadecimal(out, &[body.message_type as u8]);
    hexadecimal(out, &(body.suite as u16).to_be_bytes());
    hexadecimal(out, &[body.content_type as u8]);
    decimal(out, u64::from(body.frame_length));
    decimal(out, body.tail);
    out.push(b'\n');

    line(out, "id", [part(message, body.id)]);
    let pairs = pairs.chunks_exact(NUMBERS_A_PAIR).take(body.pairs as usize);
    for pair in pairs {
        line(
            out,
            "pair",
            pair.chunks_exact(2).map(|place| text_part(message, place)),
        );
    }
    let keys = keys.chunks_exact(NUMBERS_A_KEY).take(body.keys as usize);
    for key in keys {
        line(
            out,
            "key",
            key.chunks_exact(2).map(|place| text_part(message, place)),
        );
    }
    if body.version == 2 {
        line(out, "data", [part(message, body.suite_data)]);
    }
}

fn line<'a>(out: &mut Vec<u8>, name: &str, parts: impl IntoIterator<Item = &'a [u8]>) {
    word(out, name);
    for bytes in parts {
        hexadecimal(out, bytes);
    }
    out.push(b'\n');
}

fn word(out: &mut Vec<u8>, name: &str) {
    out.extend_from_slice(name.as_bytes());
}

/// A tab and a decimal number.
fn decimal(out: &mut Vec<u8>, number: u64) {
    out.push(b'\t');
    let mut digits = [0u8; 20];
    let mut at = digits.len();
    let mut rest = number;
    loop {
        at -= 1;
        digits[at] = b'0' + (rest % 10) as u8;
        rest /= 10;
        if rest == 0 {
            break;
        }
    }
    out.extend_from_slice(&digits[at..]);
}

/// A tab and bytes in lowercase hexadecimal; nothing after the tab if empty.
fn hexadecimal(out: &mut Vec<u8>, bytes: &[u8]) {
    const DIGITS: &[u8; 16] = b"0123456789abcdef";
    out.push(b'\t');
    for &byte in bytes {
        out.push(DIGITS[usize::from(byte >> 4)]);
        out.push(DIGITS[usize::from(byte & 15)]);
    }
}
