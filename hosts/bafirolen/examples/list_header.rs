//! Writes the listing of the header in a file, as the listing program does of
//! its standard input, and takes the file whole. A header that is refused has a
//! listing too, the one line that says so; the exit status is 0 exactly where
//! the listing was written.
//!
//!     cargo run --release --example list_header -- FILE

mod common;

use bafirolen::write_listing;
use common::{ended, message_of, print, usage};
use std::env;
use std::error::Error;
use std::ffi::OsString;
use std::path::Path;
use std::process::ExitCode;

fn run(path: &Path) -> Result<(), Box<dyn Error>> {
    let message = message_of(path)?;
    // So long an output is never too short.
    let mut listing = vec![0; 2 * message.len() + 28];
    let length = write_listing(&message, &mut listing)?;
    Ok(print(&listing[..length])?)
}

fn main() -> ExitCode {
    let arguments: Vec<OsString> = env::args_os().skip(1).collect();
    let [path] = &arguments[..] else {
        return usage("list_header FILE");
    };
    ended("list_header", run(Path::new(path)))
}
