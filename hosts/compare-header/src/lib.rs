//! The proved operations held against the separate implementation.
//!
//! The functions of `reads`, `writes` and `lengths` hand one request to both,
//! and hold the answers, tables and outputs against each other, byte for byte.
//! What is lent to be read is held against a copy: of up to 4,096 bytes after
//! each call, of up to 1 MiB once in 17 times. The tests only make requests.
//! Each body that is to be written, and each run of frames, is measured first,
//! and written into outputs that just hold it and just don't.
//!
//! `under_policy` does the same with bodies under a policy, by its number,
//! `mends` with drafts that are mended, and `reissues` with those that are
//! reissued, all with the records as they cross: a wrapper has no unknown
//! policy. For that `crossing`, and nothing else here, is unsafe.
//!
//! `fetched` asks one request to read of longer and longer fronts of a message,
//! and holds the answers to what the shorter ones promise of the longer.
#![deny(unsafe_code)]

pub mod answers;
pub mod both;
pub mod crossing;
pub mod every;
pub mod expected;
pub mod fetched;
pub mod guarded;
pub mod kept;
pub mod lengths;
pub mod mends;
pub mod numbers;
mod parts;
pub mod reads;
pub mod records;
pub mod reissues;
pub mod scale;
pub mod under_policy;
pub mod writes;

use bafirolen::{Mode, Request, Which};
pub use report::{compared, Coverage, BODY_READERS, BODY_READERS_UNDER_POLICY};

pub const fn request(which: Which, mode: Mode, max: Option<u64>) -> Request {
    // Field by field, since a request may get more of them.
    let mut request = Request::new();
    request.which = which;
    request.mode = mode;
    request.max = max;
    request
}

/// The requests that take a version: tolerant and strict, by the reader of
/// either version and by that of the version alone.
pub fn requests(version: u32) -> [Request; 4] {
    let only = match version {
        1 => Which::V1Only,
        _ => Which::V2Only,
    };
    [
        (Which::Either, Mode::Tolerant),
        (Which::Either, Mode::Strict),
        (only, Mode::Tolerant),
        (only, Mode::Strict),
    ]
    .map(|(which, mode)| request(which, mode, None))
}
