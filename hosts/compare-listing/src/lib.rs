//! The listing program, run on bytes of choice.
#![forbid(unsafe_code)]

use std::io::{ErrorKind, Read, Write};
use std::path::Path;
use std::process::{Child, Command, Stdio};
use std::thread;

pub use report::compared;

/// The program, waiting for its input. A missing one is a failure that says
/// what to run.
fn start() -> Child {
    let path = Path::new(env!("CARGO_MANIFEST_DIR")).join("../../target/bin/listing");
    Command::new(path)
        .stdin(Stdio::piped())
        .stdout(Stdio::piped())
        .spawn()
        .unwrap_or_else(|error| {
            panic!("target/bin/listing: {error}; `./demo` at the root writes it")
        })
}

/// What the program writes when it is given `input`.
pub fn program(input: &[u8]) -> Vec<u8> {
    let mut child = start();
    let mut stdin = child.stdin.take().expect("its input is a pipe");
    let mut stdout = child.stdout.take().expect("its output is a pipe");
    let mut text = Vec::new();
    thread::scope(|scope| {
        // Beside the reading, since either pipe may be full.
        scope.spawn(move || match stdin.write_all(input) {
            // It ended before it took all: the rest is ignored.
            Err(error) if error.kind() == ErrorKind::BrokenPipe => (),
            written => written.expect("its input can be written"),
        });
        stdout
            .read_to_end(&mut text)
            .expect("its output can be read");
    });
    let status = child.wait().expect("it ends");
    assert!(status.success(), "the program ended with {status}");
    text
}

/// Holds the program and the separate implementation against a text.
pub fn listed(what: &str, input: &[u8], wanted: &[u8]) {
    let text = String::from_utf8_lossy;
    let reference = reference::listing(input);
    assert_eq!(text(&reference), text(wanted), "the reference on {what}");
    assert_eq!(text(&program(input)), text(wanted), "the program on {what}");
}

/// The line of a refusal.
pub fn refused(number: u32, position: u64) -> Vec<u8> {
    format!("refused\t{number}\t{position}\n").into_bytes()
}
