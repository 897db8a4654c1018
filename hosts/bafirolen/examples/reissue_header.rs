//! Turns the draft of version 1 at the front of a file into version 2, with the
//! suite, message ID and suite data that are given in hexadecimal; reads the new
//! body back, compares, and only then files it. What stands behind the draft is
//! not taken over: an authentication record is made for the draft, and the new
//! body needs another.
//!
//!     cargo run --release --example reissue_header -- FILE NEW 0578 ID DATA

mod common;

use bafirolen::{
    read_header_body, reissued_header_body_to_vec, Body, Numbers, Reissue, Request, Which,
    LARGEST_KEY_TABLE, LARGEST_PAIR_TABLE,
};
use common::{ended, message_of, print, usage};
use std::error::Error;
use std::ffi::{OsStr, OsString};
use std::path::Path;
use std::process::ExitCode;
use std::{env, fs};

/// The bytes that digits stand for, two for each.
fn decoded(digits: &OsStr) -> Option<Vec<u8>> {
    let digits = digits.to_str()?.chars().map(|digit| digit.to_digit(16));
    let digits = digits.collect::<Option<Vec<u32>>>()?;
    let twos = digits.chunks_exact(2);
    let whole = twos.remainder().is_empty();
    whole.then(|| twos.map(|two| (16 * two[0] + two[1]) as u8).collect())
}

/// The number of up to four bytes. It need not be a suite.
fn number(bytes: &[u8]) -> Option<u32> {
    let fits = (1..=4).contains(&bytes.len());
    fits.then(|| {
        bytes
            .iter()
            .fold(0, |number, byte| 256 * number + u32::from(*byte))
    })
}

/// The new body was read to its end, and has what was added and what the draft
/// handed on.
fn same(header: &[u8], body: &Body, draft: &Body, added: &Reissue) -> bool {
    let of = draft.numbers;
    body.tail == header.len() as u64
        && body.numbers == Numbers::version_2(added.suite, of.content_type, of.frame_length)
        && body.message_id() == added.message_id
        && body.suite_data() == added.suite_data
        && body.pairs().eq(draft.pairs())
        && body.keys().eq(draft.keys())
}

fn report(body: &Body, draft: &Body) -> String {
    let (was, now) = (draft.numbers, body.numbers);
    let (old, new) = (draft.tail, body.tail);
    let (pairs, keys) = (body.pairs().len(), body.keys().len());
    let (content, length) = (now.content_type, now.frame_length);
    format!("reissued {old} bytes of version 1 as {new} of version 2\n")
        + &format!("suite {:04x} is now {:04x}\n", was.suite, now.suite)
        + &format!("pairs {pairs}, encrypted data keys {keys}, ")
        + &format!("content type {content:02x}, frame length {length}\n")
}

fn run(path: &Path, new: &Path, added: &Reissue) -> Result<(), Box<dyn Error>> {
    let message = message_of(path)?;
    // Just as long as what is written.
    let header = reissued_header_body_to_vec(&message, 0, added)?;

    let (mut pairs, mut keys) = (vec![0; LARGEST_PAIR_TABLE], vec![0; LARGEST_KEY_TABLE]);
    let (mut new_pairs, mut new_keys) = (pairs.clone(), keys.clone());
    let first = Request::default().only(Which::V1Only);
    let draft = read_header_body(&message, 0, first, &mut pairs, &mut keys)?;
    let either = Request::default();
    let body = read_header_body(&header, 0, either, &mut new_pairs, &mut new_keys)?;
    if !same(&header, &body, &draft, added) {
        return Err("what was read back is not what was written".into());
    }
    fs::write(new, &header).map_err(|error| format!("{}: {error}", new.display()))?;
    Ok(print(report(&body, &draft).as_bytes())?)
}

/// Suite, message ID and suite data, if their digits stand for bytes, and the
/// suite's for a number.
fn added(suite: &OsStr, id: &OsStr, data: &OsStr) -> Option<(u32, Vec<u8>, Vec<u8>)> {
    Some((number(&decoded(suite)?)?, decoded(id)?, decoded(data)?))
}

fn main() -> ExitCode {
    let arguments: Vec<OsString> = env::args_os().skip(1).collect();
    let line = "reissue_header FILE NEW SUITE ID DATA";
    let [path, new, suite, id, data] = &arguments[..] else {
        return usage(line);
    };
    let Some((suite, id, data)) = added(suite, id, data) else {
        return usage(line);
    };
    let added = Reissue {
        suite,
        message_id: &id,
        suite_data: &data,
    };
    let outcome = run(Path::new(path), Path::new(new), &added);
    ended("reissue_header", outcome)
}
