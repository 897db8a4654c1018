//! Writes the listing of the message in a file: that of its header, as
//! `list_header` does, and then, where the content is framed, a line for each
//! frame: `frame`, its number, and the start and length of its content; in the
//! last line `final` in place of `frame`. Where it is not framed, the line is
//! `non-framed` and where the content begins. Of a header that is refused
//! nothing follows; a record or frames that are refused fail.
//!
//!     cargo run --release --example list_message -- FILE

mod common;

use bafirolen::{
    frame_table_len, read_frames, read_header_auth_tag, read_header_body, write_listing, Refusal,
    Request, FRAMED, NUMBERS_PER_FRAME,
};
use common::{ended, message_of, print, usage};
use std::env;
use std::error::Error;
use std::ffi::OsString;
use std::path::Path;
use std::process::ExitCode;

/// The lines behind those of the header; none where that is refused.
fn lines_behind(message: &[u8]) -> Result<String, Refusal> {
    // As long as the listing's own: the header is read as the listing reads it.
    let (mut pairs, mut keys) = ([0; 4_096], [0; 4_096]);
    let request = Request::default();
    let Ok(body) = read_header_body(message, 0, request, &mut pairs, &mut keys) else {
        return Ok(String::new());
    };
    let record = read_header_auth_tag(message, body.tail, body.numbers.suite)?;
    if body.numbers.content_type != FRAMED {
        return Ok(format!("non-framed\t{}\n", record.tail));
    }
    let length = body.numbers.frame_length;
    // So long a table is never too short.
    let behind = message.len() - record.tail as usize;
    let mut table = vec![0; frame_table_len(behind, length)];
    let frames = read_frames(message, record.tail, length, &mut table)?;

    let mut lines = String::new();
    let last = frames.len();
    for (number, entry) in (1..).zip(frames.frame_table().chunks(NUMBERS_PER_FRAME)) {
        let word = if number == last { "final" } else { "frame" };
        lines += &format!("{word}\t{number}\t{}\t{}\n", entry[2], entry[3]);
    }
    Ok(lines)
}

fn run(path: &Path) -> Result<(), Box<dyn Error>> {
    let message = message_of(path)?;
    // So long an output is never too short.
    let mut listing = vec![0; 2 * message.len() + 28];
    let length = write_listing(&message, &mut listing)?;
    print(&listing[..length])?;
    Ok(print(lines_behind(&message)?.as_bytes())?)
}

fn main() -> ExitCode {
    let arguments: Vec<OsString> = env::args_os().skip(1).collect();
    let [path] = &arguments[..] else {
        return usage("list_message FILE");
    };
    ended("list_message", run(Path::new(path)))
}
