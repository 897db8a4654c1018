//! The record that authenticates a header, read and written.

use crate::leaves::{part, put, read_bytes};
use crate::refusal::*;
use crate::suites::{lookup, Suite};

const IV: usize = Suite::IV_LEN as usize;
const TAG: usize = Suite::TAG_LEN as usize;

/// An accepted record. Version 2 stores no IV; it is twelve 00.
#[derive(Clone, Copy, Debug, PartialEq, Eq)]
pub struct AuthRecord {
    pub iv: [u8; IV],
    pub tag: [u8; TAG],
    pub tail: u64,
}

/// Reads the record of a suite: 1; 6; version 1: 2 at the IV; 2 at the tag.
pub fn read_header_auth_tag(message: &[u8], start: u64, suite: u32) -> Result<AuthRecord, Refusal> {
    test_sizes(message, start)?;
    let suite = lookup(suite).ok_or(Refusal::of(UNKNOWN_SUITE))?;
    let mut iv = [0u8; IV];
    let mut at = start;
    if suite.version == 1 {
        let place = read_bytes(message, at, Suite::IV_LEN)?;
        iv.copy_from_slice(part(message, place));
        at = place.end();
    }
    let place = read_bytes(message, at, Suite::TAG_LEN)?;
    let mut tag = [0u8; TAG];
    tag.copy_from_slice(part(message, place));
    Ok(AuthRecord {
        iv,
        tag,
        tail: place.end(),
    })
}

/// Writes the record of a suite from the output's first byte; answers its
/// length. 6; 19; 30; 28. Version 2 tests the IV's length too, though it
/// ignores its contents.
pub fn write_header_auth_tag(
    suite: u32,
    iv: &[u8],
    tag: &[u8],
    out: &mut [u8],
) -> Result<u64, Refusal> {
    let suite = lookup(suite).ok_or(Refusal::of(UNKNOWN_SUITE))?;
    if iv.len() != IV {
        return Err(Refusal::of(IV_LENGTH));
    }
    if tag.len() != TAG {
        return Err(Refusal::of(TAG_LENGTH));
    }
    let stored_iv = if suite.version == 1 { iv } else { &[] };
    let length = stored_iv.len() + tag.len();
    if length > out.len() {
        return Err(Refusal::of(OUTPUT));
    }
    let at = put(out, 0, stored_iv);
    put(out, at, tag);
    Ok(length as u64)
}
