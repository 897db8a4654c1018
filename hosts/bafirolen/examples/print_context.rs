//! Reads a header from a file and prints the pairs of its context.
//!
//!     cargo run --release --example print_context -- FILE

mod common;

use bafirolen::{read_header_body, Request, LARGEST_KEY_TABLE, LARGEST_PAIR_TABLE};
use common::{ended, message_of, print, usage};
use std::env;
use std::error::Error;
use std::ffi::OsString;
use std::path::Path;
use std::process::ExitCode;
use std::str::from_utf8;

fn run(path: &Path) -> Result<(), Box<dyn Error>> {
    let message = message_of(path)?;
    let (mut pairs, mut keys) = (vec![0; LARGEST_PAIR_TABLE], vec![0; LARGEST_KEY_TABLE]);
    let body = read_header_body(&message, 0, Request::default(), &mut pairs, &mut keys)?;

    let mut lines = String::new();
    for pair in body.pairs() {
        lines += &format!("{} = {}\n", from_utf8(pair.key)?, from_utf8(pair.value)?);
    }
    Ok(print(lines.as_bytes())?)
}

fn main() -> ExitCode {
    let arguments: Vec<OsString> = env::args_os().skip(1).collect();
    let [path] = &arguments[..] else {
        return usage("print_context FILE");
    };
    ended("print_context", run(Path::new(path)))
}
