//! Finds the value of one key in the context of a header that lies in a file.
//! The header is read first: no value is taken from one that is refused.
//!
//!     cargo run --release --example find_value -- FILE KEY

mod common;

use bafirolen::{find_bytes, read_header_body, Request, LARGEST_KEY_TABLE, LARGEST_PAIR_TABLE};
use common::{ended, message_of, print, usage};
use std::env;
use std::error::Error;
use std::ffi::{OsStr, OsString};
use std::os::unix::ffi::OsStrExt;
use std::path::Path;
use std::process::ExitCode;

fn run(path: &Path, key: &OsStr) -> Result<(), Box<dyn Error>> {
    let message = message_of(path)?;
    let (mut pairs, mut keys) = (vec![0; LARGEST_PAIR_TABLE], vec![0; LARGEST_KEY_TABLE]);
    let body = read_header_body(&message, 0, Request::default(), &mut pairs, &mut keys)?;
    let value = find_bytes(&message, body.context_start(), key.as_bytes())?;
    Ok(print(&[value, b"\n"].concat())?)
}

fn main() -> ExitCode {
    let arguments: Vec<OsString> = env::args_os().skip(1).collect();
    let [path, key] = &arguments[..] else {
        return usage("find_value FILE KEY");
    };
    ended("find_value", run(Path::new(path), key))
}
