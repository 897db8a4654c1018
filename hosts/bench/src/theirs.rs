//! The calls of the separate implementation that stand beside those of
//! [`crate::ours`].

use crate::answer::told;
use generator::fields::Fields;
use generator::rows::Added;
use generator::tables::Lent;
use generator::Key;
use reference::{Body, Draft, Mode, Numbers, Policy, Refusal, Reissue, Request, Which};

fn number(refusal: Refusal) -> u32 {
    refusal.number
}

#[inline]
pub fn read_context(message: &[u8], table: &mut [u32]) -> u64 {
    told(
        reference::read_aad_section(message, 0, Mode::Tolerant, table)
            .map(|read| read.tail)
            .map_err(number),
    )
}

#[inline]
pub fn find(message: &[u8], key: &[u8]) -> u64 {
    told(
        reference::find(message, 0, key)
            .map(|place| place.start)
            .map_err(number),
    )
}

#[inline]
pub fn write_context(lent: &Lent, out: &mut [u8]) -> u64 {
    told(reference::write_aad_section(&lent.text, &lent.pairs, out).map_err(number))
}

#[inline]
pub fn only_authenticated(message: &[u8], text: &[u8], required: &[u32], out: &mut [u8]) -> u64 {
    told(reference::write_only_authenticated(message, 0, text, required, out).map_err(number))
}

#[inline]
pub fn read_keys(message: &[u8], table: &mut [u32]) -> u64 {
    told(
        reference::read_encrypted_data_keys_section(message, 0, None, table)
            .map(|read| read.tail)
            .map_err(number),
    )
}

#[inline]
pub fn write_keys(lent: &Lent, out: &mut [u8]) -> u64 {
    told(reference::write_encrypted_data_keys_section(&lent.text, &lent.keys, out).map_err(number))
}

#[inline]
pub fn read_frames(message: &[u8], frame_length: u32, table: &mut [u32]) -> u64 {
    told(
        reference::read_frames(message, 0, frame_length, table)
            .map(|read| read.tail)
            .map_err(number),
    )
}

#[inline]
pub fn write_frames(frame_length: u32, text: &[u8], frames: &[u32], out: &mut [u8]) -> u64 {
    told(reference::write_frames(frame_length, text, frames, out).map_err(number))
}

#[inline]
pub fn frames_len(frame_length: u32, text: &[u8], frames: &[u32]) -> u64 {
    told(reference::frames_len(frame_length, text, frames).map_err(number))
}

#[inline]
pub fn refile_frames(message: &[u8], frame_length: u32, table: &mut [u32], out: &mut [u8]) -> u64 {
    told(
        reference::read_frames(message, 0, frame_length, table)
            .and_then(|read| {
                let frames = &table[..6 * read.frames as usize];
                reference::write_frames(frame_length, message, frames, out)
            })
            .map_err(number),
    )
}

#[inline]
pub fn read_body(message: &[u8], pairs: &mut [u32], keys: &mut [u32]) -> u64 {
    let (which, mode) = (Which::Either, Mode::Tolerant);
    told(
        reference::read_header_body(message, 0, which, mode, None, pairs, keys)
            .map(|body| body.tail)
            .map_err(number),
    )
}

#[inline]
pub fn read_front(front: &[u8], pairs: &mut [u32], keys: &mut [u32]) -> Result<u64, (u32, u64)> {
    let (which, mode) = (Which::Either, Mode::Tolerant);
    reference::read_header_body(front, 0, which, mode, None, pairs, keys)
        .map(|body| body.tail)
        .map_err(|refusal| (refusal.number, refusal.position))
}

#[inline]
pub fn read_body_under(policy: Policy, message: &[u8], pairs: &mut [u32], keys: &mut [u32]) -> u64 {
    let request = Request {
        which: Which::Either,
        mode: Mode::Tolerant,
        max: None,
        policy,
    };
    told(
        reference::read_header_body_under_policy(message, 0, request, pairs, keys)
            .map(|body| body.tail)
            .map_err(number),
    )
}

#[inline]
pub fn write_body(fields: &Fields, lent: &Lent, out: &mut [u8]) -> u64 {
    let numbers = Numbers::from(fields.numbers());
    let (id, data) = (&fields.id, &fields.suite_data);
    let (text, pairs, keys) = (&lent.text, &lent.pairs, &lent.keys);
    told(reference::write_header_body(&numbers, id, data, text, pairs, keys, out).map_err(number))
}

#[inline]
pub fn write_body_under(policy: Policy, fields: &Fields, lent: &Lent, out: &mut [u8]) -> u64 {
    let draft = Draft {
        numbers: Numbers::from(fields.numbers()),
        id: &fields.id,
        suite_data: &fields.suite_data,
        text: &lent.text,
        pairs: &lent.pairs,
        keys: &lent.keys,
    };
    told(reference::write_header_body_under_policy(policy, &draft, out).map_err(number))
}

#[inline]
pub fn body_len(fields: &Fields, lent: &Lent) -> u64 {
    let numbers = Numbers::from(fields.numbers());
    let (id, data) = (&fields.id, &fields.suite_data);
    let (text, pairs, keys) = (&lent.text, &lent.pairs, &lent.keys);
    told(reference::header_body_len(&numbers, id, data, text, pairs, keys).map_err(number))
}

#[inline]
pub fn refile_body(message: &[u8], pairs: &mut [u32], keys: &mut [u32], out: &mut [u8]) -> u64 {
    let (which, mode) = (Which::Either, Mode::Tolerant);
    told(
        reference::read_header_body(message, 0, which, mode, None, pairs, keys)
            .and_then(|body| write_again(&body, message, pairs, keys, out))
            .map_err(number),
    )
}

/// Writes a body that was read, the message as the text.
fn write_again(
    body: &Body,
    message: &[u8],
    pairs: &[u32],
    keys: &[u32],
    out: &mut [u8],
) -> Result<u64, Refusal> {
    let id = body.id.within(message).expect("the ID that was read");
    let data = body.suite_data.within(message).expect("the suite data");
    let pairs = &pairs[..4 * body.pairs as usize];
    let keys = &keys[..6 * body.keys as usize];
    reference::write_header_body(&body.numbers(), id, data, message, pairs, keys, out)
}

#[inline]
pub fn drop_keys(draft: &mut [u8], provider_id: &[u8]) -> u64 {
    told(reference::drop_encrypted_data_keys(draft, provider_id).map_err(number))
}

#[inline]
pub fn add_key(draft: &mut [u8], [id, info, ciphertext]: &Key) -> u64 {
    told(reference::add_encrypted_data_key(draft, id, info, ciphertext).map_err(number))
}

#[inline]
pub fn reissue(message: &[u8], added: Added, out: &mut [u8]) -> u64 {
    let reissue = Reissue {
        suite: added.suite,
        id: added.id,
        suite_data: added.suite_data,
    };
    told(reference::reissue_header_body(message, 0, &reissue, out).map_err(number))
}

#[inline]
pub fn write_listing(message: &[u8], out: &mut [u8]) -> u64 {
    told(reference::write_listing(message, out).map_err(number))
}
