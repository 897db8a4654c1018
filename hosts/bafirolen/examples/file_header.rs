//! Builds the fields of a header, writes it, reads it back, compares, and
//! only then files it.
//!
//!     cargo run --release --example file_header -- FILE

mod common;

use bafirolen::{header_body_to_vec, read_header_body, Body, Draft, Key, Numbers, Pair, Request};
use common::{ended, print, usage};
use std::error::Error;
use std::ffi::OsString;
use std::path::Path;
use std::process::ExitCode;
use std::{env, fs};

const NUMBERS: Numbers = Numbers::version_1(0x0178, bafirolen::FRAMED, 4_096);
const MESSAGE_ID: [u8; 16] = [0, 1, 2, 3, 4, 5, 6, 7, 8, 9, 10, 11, 12, 13, 14, 15];
const PAIRS: [Pair; 1] = [Pair {
    key: b"lang",
    value: b"cy",
}];
const KEYS: [Key; 1] = [Key {
    provider_id: b"p1",
    provider_info: b"a",
    ciphertext: &[0xAA, 0xBB, 0xCC],
}];

/// Appends parts to the text, and their places to a table.
fn lend(text: &mut Vec<u8>, table: &mut Vec<u32>, parts: &[&[u8]]) {
    for part in parts {
        table.extend([text.len() as u32, part.len() as u32]);
        text.extend_from_slice(part);
    }
}

/// The header was read to its end and has the fields.
fn same(header: &[u8], body: &Body) -> bool {
    body.tail == header.len() as u64
        && body.numbers == NUMBERS
        && body.message_id() == MESSAGE_ID
        && body.suite_data().is_empty()
        && body.pairs().eq(PAIRS)
        && body.keys().eq(KEYS)
}

fn run(path: &Path) -> Result<(), Box<dyn Error>> {
    let (mut text, mut pairs, mut keys) = (Vec::new(), Vec::new(), Vec::new());
    for pair in PAIRS {
        lend(&mut text, &mut pairs, &[pair.key, pair.value]);
    }
    for key in KEYS {
        let parts = [key.provider_id, key.provider_info, key.ciphertext];
        lend(&mut text, &mut keys, &parts);
    }
    let draft = Draft::new(NUMBERS, &MESSAGE_ID).with_tables(&text, &pairs, &keys);
    // Just as long as what is written.
    let header = header_body_to_vec(&draft)?;

    let (mut read_pairs, mut read_keys) = (vec![0; pairs.len()], vec![0; keys.len()]);
    let request = Request::default();
    let body = read_header_body(&header, 0, request, &mut read_pairs, &mut read_keys)?;
    if !same(&header, &body) {
        return Err("what was read back is not what was written".into());
    }
    fs::write(path, &header).map_err(|error| format!("{}: {error}", path.display()))?;
    Ok(print(format!("filed {} bytes\n", header.len()).as_bytes())?)
}

fn main() -> ExitCode {
    let arguments: Vec<OsString> = env::args_os().skip(1).collect();
    let [path] = &arguments[..] else {
        return usage("file_header FILE");
    };
    ended("file_header", run(Path::new(path)))
}
