//! Writes the message of the content in a file: a header, its authentication
//! record and the frames behind it. Reads all of that back, compares, and only
//! then files it. Nothing is encrypted here: the content is taken as a cipher
//! would have given it, and IVs and tags are samples, the number of their frame
//! in digits, that of the record 0.
//!
//!     cargo run --release --example file_message -- CONTENT FILE

mod common;

use bafirolen::{
    frames_to_vec, header_body_to_vec, read_frames, read_header_auth_tag, read_header_body,
    write_header_auth_tag, Body, Draft, Frames, Numbers, Refusal, Request, FRAMED, IV_LEN, TAG_LEN,
};
use common::{ended, message_of, print, usage};
use std::error::Error;
use std::ffi::OsString;
use std::path::Path;
use std::process::ExitCode;
use std::{env, fs};

const FRAME_LENGTH: u32 = 4_096;
const NUMBERS: Numbers = Numbers::version_1(0x0178, FRAMED, FRAME_LENGTH);
const MESSAGE_ID: [u8; 16] = [0, 1, 2, 3, 4, 5, 6, 7, 8, 9, 10, 11, 12, 13, 14, 15];
/// A pair and a key, and where their parts lie.
const FIELDS: &[u8] = b"langcyp1a\xAA\xBB\xCC";
const PAIRS: [u32; 4] = [0, 4, 4, 2];
const KEYS: [u32; 6] = [6, 2, 8, 1, 9, 3];

/// The sample IV and tag of a frame.
fn sealed(number: usize) -> (Vec<u8>, Vec<u8>) {
    let digits = |count: usize| format!("{number:0count$}").into_bytes();
    (digits(IV_LEN), digits(TAG_LEN))
}

/// The parts at a table's places, two numbers each.
fn parts<'t>(text: &'t [u8], table: &'t [u32]) -> impl Iterator<Item = &'t [u8]> {
    let places = table.chunks_exact(2);
    places.map(|place| &text[place[0] as usize..][..place[1] as usize])
}

/// One text with the parts of all frames, and their table: content of the frame
/// length for each but the last, which has the rest, and is there without any.
fn lend(content: &[u8]) -> (Vec<u8>, Vec<u32>) {
    let (mut text, mut table) = (content.to_vec(), Vec::new());
    let starts = (0..content.len().max(1)).step_by(FRAME_LENGTH as usize);
    for (start, number) in starts.zip(1..) {
        let length = (content.len() - start).min(FRAME_LENGTH as usize);
        let (iv, tag) = sealed(number);
        let at = text.len();
        let entry = [at, IV_LEN, start, length, at + IV_LEN, TAG_LEN];
        // Where a number has more than 32 bits, there are too many frames.
        table.extend(entry.map(|number| number as u32));
        text.extend([iv, tag].concat());
    }
    (text, table)
}

fn message(draft: &Draft, text: &[u8], table: &[u32]) -> Result<Vec<u8>, Refusal> {
    let mut message = header_body_to_vec(draft)?;
    let (iv, tag) = sealed(0);
    let mut record = [0; IV_LEN + TAG_LEN];
    let length = write_header_auth_tag(NUMBERS.suite, &iv, &tag, &mut record)?;
    message.extend(&record[..length]);
    // Just as long as what is written.
    message.extend(frames_to_vec(FRAME_LENGTH, text, table)?);
    Ok(message)
}

fn same_header(message: &[u8], body: &Body) -> bool {
    body.numbers == NUMBERS
        && body.message_id() == MESSAGE_ID
        && body.suite_data().is_empty()
        && parts(message, body.pair_table()).eq(parts(FIELDS, &PAIRS))
        && parts(message, body.key_table()).eq(parts(FIELDS, &KEYS))
}

/// The frames were read to the message's end, and have the parts of the table.
fn same_frames(message: &[u8], frames: &Frames, text: &[u8], table: &[u32]) -> bool {
    frames.tail() == message.len() as u64
        && parts(message, frames.frame_table()).eq(parts(text, table))
}

/// Whether the message is read as what it was written from.
fn reads_back(message: &[u8], text: &[u8], table: &[u32]) -> Result<bool, Refusal> {
    let (mut pairs, mut keys) = ([0; PAIRS.len()], [0; KEYS.len()]);
    let body = read_header_body(message, 0, Request::default(), &mut pairs, &mut keys)?;
    let record = read_header_auth_tag(message, body.tail, body.numbers.suite)?;
    let mut numbers = vec![0; table.len()];
    let frames = read_frames(
        message,
        record.tail,
        body.numbers.frame_length,
        &mut numbers,
    )?;
    Ok(same_header(message, &body)
        && (record.iv.to_vec(), record.tag.to_vec()) == sealed(0)
        && same_frames(message, &frames, text, table))
}

fn run(content: &Path, path: &Path) -> Result<(), Box<dyn Error>> {
    let (text, table) = lend(&message_of(content)?);
    let draft = Draft::new(NUMBERS, &MESSAGE_ID).with_tables(FIELDS, &PAIRS, &KEYS);
    let message = message(&draft, &text, &table)?;
    if !reads_back(&message, &text, &table)? {
        return Err("what was read back is not what was written".into());
    }
    fs::write(path, &message).map_err(|error| format!("{}: {error}", path.display()))?;
    Ok(print(
        format!("filed {} bytes\n", message.len()).as_bytes(),
    )?)
}

fn main() -> ExitCode {
    let arguments: Vec<OsString> = env::args_os().skip(1).collect();
    let [content, path] = &arguments[..] else {
        return usage("file_message CONTENT FILE");
    };
    ended("file_message", run(Path::new(content), Path::new(path)))
}
