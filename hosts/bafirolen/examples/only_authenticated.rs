//! Writes, in hexadecimal, the bytes that a station authenticates for the keys
//! named: the pairs that have them, in the context of a header that lies in a
//! file. Where it has none of them, the line is empty.
//! The header is read first: no pair is taken from one that is refused.
//!
//!     cargo run --release --example only_authenticated -- FILE KEY..

mod common;

use bafirolen::{
    read_header_body, write_only_authenticated, Request, LARGEST_KEY_TABLE, LARGEST_PAIR_TABLE,
};
use common::{ended, message_of, print, usage};
use std::env;
use std::error::Error;
use std::ffi::OsString;
use std::os::unix::ffi::OsStrExt;
use std::path::Path;
use std::process::ExitCode;

fn run(path: &Path, named: &[OsString]) -> Result<(), Box<dyn Error>> {
    let message = message_of(path)?;
    let (mut pairs, mut keys) = (vec![0; LARGEST_PAIR_TABLE], vec![0; LARGEST_KEY_TABLE]);
    let body = read_header_body(&message, 0, Request::default(), &mut pairs, &mut keys)?;

    let (mut text, mut required) = (Vec::new(), Vec::new());
    for key in named {
        required.extend([text.len() as u32, key.len() as u32]);
        text.extend_from_slice(key.as_bytes());
    }
    // So long an output is never too short.
    let mut out = vec![0; 65_535];
    let length =
        write_only_authenticated(&message, body.context_start(), &text, &required, &mut out)?;

    let mut line = String::new();
    for byte in &out[..length] {
        line += &format!("{byte:02x}");
    }
    Ok(print((line + "\n").as_bytes())?)
}

fn main() -> ExitCode {
    let arguments: Vec<OsString> = env::args_os().skip(1).collect();
    match &arguments[..] {
        [path, named @ ..] if !named.is_empty() => {
            ended("only_authenticated", run(Path::new(path), named))
        }
        _ => usage("only_authenticated FILE KEY.."),
    }
}
