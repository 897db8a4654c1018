//! What every comparison ends with: how many cases there were, and which
//! refusals came about.
#![forbid(unsafe_code)]

mod coverage;
mod listed;

pub use coverage::Coverage;
pub use listed::{assert_said, listed, BODY_READERS, BODY_READERS_UNDER_POLICY, LISTED};
use std::io::Write;

/// A line to the stream itself, since cargo swallows what a passing test
/// prints. It begins with a line end, because another test may have written
/// half of a line.
pub fn say(line: &str) {
    std::io::stdout()
        .write_all(format!("\n{line}\n").as_bytes())
        .expect("a line can be written");
}

/// Says how many cases were compared; none is a failure.
pub fn compared(count: u64, what: &str) {
    assert!(count > 0, "compared no {what}");
    say(&format!("compared {count} {what}"));
}
