//! Fetches the header at the front of standard input, such as a pipe, and says
//! how many bytes it has, and in how many rounds they came. No byte behind it is
//! asked for, nor behind what a header is refused for: whoever reads next finds
//! them. Where PIECE is named, at most so many bytes are read at once.
//!
//!     cat FILE | (cargo run --release --example fetch_header -- [PIECE]; cat >BEHIND)

mod common;

use bafirolen::{
    fetch, read_header_body, Fetched, Refusal, Request, LARGEST_KEY_TABLE, LARGEST_PAIR_TABLE,
};
use common::{ended, print, usage};
use std::env;
use std::error::Error;
use std::ffi::{OsStr, OsString};
use std::fs::File;
use std::io::{self, Read};
use std::os::fd::AsFd;
use std::process::ExitCode;

/// No longer header is taken: a header may claim more than ever comes.
const LONGEST: usize = 1_048_576;

fn fetched(piece: usize) -> io::Result<Fetched> {
    // A file of its own: `Stdin` would read ahead.
    let mut input = File::from(io::stdin().as_fd().try_clone_to_owned()?);
    let mut buffer = vec![0; LONGEST];
    let (mut pairs, mut keys) = (vec![0; LARGEST_PAIR_TABLE], vec![0; LARGEST_KEY_TABLE]);
    fetch(
        &mut buffer,
        0,
        |message| {
            read_header_body(message, 0, Request::default(), &mut pairs, &mut keys).map(|_| ())
        },
        |wanted| {
            let length = wanted.len().min(piece);
            input.read(&mut wanted[..length])
        },
    )
}

fn run(piece: usize) -> Result<(), Box<dyn Error>> {
    let fetched = fetched(piece).map_err(|error| format!("standard input: {error}"))?;
    match fetched.answer {
        Err(Refusal::Shortage { position }) if position > LONGEST as u64 => {
            return Err(format!("a header above {LONGEST} bytes").into());
        }
        answer => answer?,
    }
    let (length, rounds) = (fetched.held, fetched.rounds);
    Ok(print(
        format!("header of {length} bytes in {rounds} rounds\n").as_bytes(),
    )?)
}

/// A number above 0.
fn named(piece: &OsStr) -> Option<usize> {
    piece.to_str()?.parse().ok().filter(|piece| *piece > 0)
}

fn main() -> ExitCode {
    let arguments: Vec<OsString> = env::args_os().skip(1).collect();
    let piece = match &arguments[..] {
        [] => Some(LONGEST),
        [piece] => named(piece),
        _ => None,
    };
    match piece {
        Some(piece) => ended("fetch_header", run(piece)),
        None => usage("fetch_header [PIECE]"),
    }
}
