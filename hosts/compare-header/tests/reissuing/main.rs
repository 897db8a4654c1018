//! Drafts of version 1 that are reissued as bodies of version 2.
//!
//! What is wanted of a body is always worked out by concatenation, and what is
//! wanted of a draft by reading it.

mod cuts_and_bytes;
mod generated;
mod round_trips;
mod rows;

use bafirolen::{Form, Mode, Refusal, Which, FRAMED};
use compare_header::numbers::{Answer, Body};
use compare_header::reads::{self, Tables};
use compare_header::request;

/// The draft, read as a reissue reads it, with tables that hold whatever it has:
/// a pair takes at least four bytes, and a key six.
fn read(message: &[u8], start: u64) -> (Answer<Body>, Tables) {
    let request = request(Which::V1Only, Mode::Tolerant, None);
    let (pairs, keys) = (vec![3; message.len()], vec![5; message.len()]);
    reads::read_header_body(message, start, request, &pairs, &keys)
}

/// The length that reading foretells, if what is added is sound: 15 bytes more
/// at the front and 27 at the end, and 2 less where an empty context had its
/// old form; or the refusal, of which the reader of one version lacks 20.
fn foretold(message: &[u8], start: u64) -> Answer<usize> {
    let body = read(message, start).0?;
    if (body.numbers.content_type == FRAMED) != (body.numbers.frame_length > 0) {
        return Err(Refusal::FrameLength);
    }
    let less = if body.numbers.form == Form::Old { 2 } else { 0 };
    Ok((body.tail - start) as usize + 15 + 27 - less)
}
