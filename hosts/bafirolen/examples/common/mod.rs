//! How the examples read a file, print, and end.

// Not every example reads a file.
#![allow(dead_code)]

use std::error::Error;
use std::fs;
use std::io::{self, Write};
use std::path::Path;
use std::process::ExitCode;

/// The bytes of a file.
pub fn message_of(path: &Path) -> Result<Vec<u8>, String> {
    fs::read(path).map_err(|error| format!("{}: {error}", path.display()))
}

/// Writes to standard output; what a buffer holds fails no sooner than when it
/// is flushed.
pub fn print(text: &[u8]) -> Result<(), String> {
    let mut out = io::stdout().lock();
    out.write_all(text)
        .and_then(|()| out.flush())
        .map_err(|error| format!("standard output: {error}"))
}

/// Wrong arguments. What can't be said on standard error is still said by the
/// status, here and in [`ended`].
pub fn usage(line: &str) -> ExitCode {
    let _ = writeln!(io::stderr(), "usage: {line}");
    ExitCode::from(2)
}

/// The status, and on standard error why it is not 0.
pub fn ended(program: &str, outcome: Result<(), Box<dyn Error>>) -> ExitCode {
    match outcome {
        Ok(()) => ExitCode::SUCCESS,
        Err(error) => {
            let _ = writeln!(io::stderr(), "{program}: {error}");
            ExitCode::FAILURE
        }
    }
}
