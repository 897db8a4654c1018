//! Drafts mended where they stand: a header body at the front of a lent buffer
//! loses the keys of one provider, or gets one key more.
//!
//! The buffer may be longer than the draft. What stands behind the draft, the
//! old one or the new one, whichever ends later, is never touched.

use crate::body::{walk, Request, Which};
use crate::context::Mode;
use crate::keys::places;
use crate::leaves::{part, read_u16, Place, ENTRY_MAX};
use crate::policy::Policy;
use crate::refusal::*;
use crate::tables::COUNT_MAX;
use crate::utf8::is_utf8;

/// How a draft is read, from the buffer's first byte.
const READ: Request = Request {
    which: Which::Either,
    mode: Mode::Tolerant,
    max: None,
    policy: Policy::None,
};

/// A draft that was read: its keys, of which there is at least one, where their
/// count stands, where they end, and where the draft does.
struct Read {
    keys: Vec<[Place; 3]>,
    count_at: usize,
    keys_end: usize,
    tail: usize,
}

/// What reading a draft refuses.
fn read(draft: &[u8]) -> Result<Read, Refusal> {
    let body = walk(draft, 0, READ)?.body;
    // The context section says how many bytes follow its length.
    let (length, context) = read_u16(draft, body.id.end())?;
    let count_at = context + u64::from(length);
    let keys: Vec<[Place; 3]> = places(draft, body.keys, count_at + 2).collect();
    let keys_end = keys.last().map_or(count_at + 2, |key| key[2].end());
    Ok(Read {
        keys,
        count_at: count_at as usize,
        keys_end: keys_end as usize,
        tail: body.tail as usize,
    })
}

/// A key's three entries as they stand in the draft, the first one's length
/// included.
fn entries<'d>(draft: &'d [u8], [provider, _, ciphertext]: &[Place; 3]) -> &'d [u8] {
    &draft[provider.start as usize - 2..ciphertext.end() as usize]
}

/// Drops every key with this provider ID, which may be any bytes; answers the
/// new tail. The keys that are kept stay in their order, and what stood behind
/// the keys stands behind them again; the bytes up to the old tail are 00.
/// Without such a key nothing changes. What reading refuses; 40.
pub fn drop_encrypted_data_keys(draft: &mut [u8], provider_id: &[u8]) -> Result<u64, Refusal> {
    let read = read(draft)?;
    let kept: Vec<&[u8]> = read
        .keys
        .iter()
        .filter(|[provider, ..]| part(draft, *provider) != provider_id)
        .map(|key| entries(draft, key))
        .collect();
    if kept.is_empty() {
        return Err(Refusal::of(NO_KEY_REMAINS));
    }
    if kept.len() == read.keys.len() {
        return Ok(read.tail as u64);
    }
    let mut section = (kept.len() as u16).to_be_bytes().to_vec();
    section.extend(kept.concat());

    // All from the key count on, with another key section.
    let from = read.count_at;
    let mut mended = draft[from..read.tail].to_vec();
    mended.splice(..read.keys_end - from, section);
    let new_tail = from + mended.len();
    draft[from..new_tail].copy_from_slice(&mended);
    draft[new_tail..read.tail].fill(0);
    Ok(new_tail as u64)
}

/// Adds a key behind the others; answers the new tail. What stood behind the
/// keys moves up, over what followed the draft. What reading refuses; 16 of the
/// ID that is added; 27; 28.
pub fn add_encrypted_data_key(
    draft: &mut [u8],
    provider_id: &[u8],
    provider_info: &[u8],
    ciphertext: &[u8],
) -> Result<u64, Refusal> {
    let read = read(draft)?;
    if !is_utf8(provider_id) {
        return Err(Refusal::of(PROVIDER_NOT_UTF8));
    }
    let parts = [provider_id, provider_info, ciphertext];
    let too_long = parts.iter().any(|part| part.len() as u64 > ENTRY_MAX);
    if too_long || read.keys.len() == COUNT_MAX {
        return Err(Refusal::of(TOO_MANY_OR_LONG));
    }

    // What stands behind the keys, with the new one before it.
    let from = read.keys_end;
    let mut mended = draft[from..read.tail].to_vec();
    mended.splice(..0, parts.map(entry).concat());
    let new_tail = from + mended.len();
    if new_tail > draft.len() {
        return Err(Refusal::of(OUTPUT));
    }
    let count = (read.keys.len() as u16 + 1).to_be_bytes();
    draft[read.count_at..read.count_at + 2].copy_from_slice(&count);
    draft[from..new_tail].copy_from_slice(&mended);
    Ok(new_tail as u64)
}

/// The bytes of an entry, whose length has been tested.
fn entry(bytes: &[u8]) -> Vec<u8> {
    let length = (bytes.len() as u16).to_be_bytes();
    [&length, bytes].concat()
}
