//! Every call of the wrapper. An answer is one number, as [`told`] says: a
//! record would be copied, and the copy measured too.

use crate::answer::told;
use bafirolen::{Draft, Form, Key, Mode, Numbers, Policy, Refusal, Reissue, Request, Which};
use generator::fields::Fields;
use generator::image;
use generator::rows::Added;
use generator::tables::Lent;

fn number(refusal: Refusal) -> u32 {
    refusal.number()
}

#[inline]
pub fn read_context(message: &[u8], table: &mut [u32]) -> u64 {
    told(
        bafirolen::read_aad_section(message, 0, Mode::Tolerant, table)
            .map(|read| read.tail)
            .map_err(number),
    )
}

#[inline]
pub fn find(message: &[u8], key: &[u8]) -> u64 {
    told(
        bafirolen::find_value(message, 0, key)
            .map(|place| place.start)
            .map_err(number),
    )
}

#[inline]
pub fn write_context(lent: &Lent, out: &mut [u8]) -> u64 {
    told(
        bafirolen::write_aad_section(&lent.text, &lent.pairs, out)
            .map(|length| length as u64)
            .map_err(number),
    )
}

#[inline]
pub fn only_authenticated(message: &[u8], text: &[u8], required: &[u32], out: &mut [u8]) -> u64 {
    told(
        bafirolen::write_only_authenticated(message, 0, text, required, out)
            .map(|length| length as u64)
            .map_err(number),
    )
}

#[inline]
pub fn read_keys(message: &[u8], table: &mut [u32]) -> u64 {
    told(
        bafirolen::read_encrypted_data_keys_section(message, 0, None, table)
            .map(|read| read.tail)
            .map_err(number),
    )
}

#[inline]
pub fn write_keys(lent: &Lent, out: &mut [u8]) -> u64 {
    told(
        bafirolen::write_encrypted_data_keys_section(&lent.text, &lent.keys, out)
            .map(|length| length as u64)
            .map_err(number),
    )
}

#[inline]
pub fn read_frames(message: &[u8], frame_length: u32, table: &mut [u32]) -> u64 {
    told(
        bafirolen::read_frames(message, 0, frame_length, table)
            .map(|read| read.tail())
            .map_err(number),
    )
}

#[inline]
pub fn write_frames(frame_length: u32, text: &[u8], frames: &[u32], out: &mut [u8]) -> u64 {
    told(
        bafirolen::write_frames(frame_length, text, frames, out)
            .map(|length| length as u64)
            .map_err(number),
    )
}

#[inline]
pub fn frames_len(frame_length: u32, text: &[u8], frames: &[u32]) -> u64 {
    told(
        bafirolen::frames_len(frame_length, text, frames)
            .map(|length| length as u64)
            .map_err(number),
    )
}

/// Into just as much of the output as the frames take.
#[inline]
pub fn measure_and_write_frames(
    frame_length: u32,
    text: &[u8],
    frames: &[u32],
    out: &mut [u8],
) -> u64 {
    told(
        bafirolen::frames_len(frame_length, text, frames)
            .and_then(|length| {
                bafirolen::write_frames(frame_length, text, frames, &mut out[..length])
            })
            .map(|length| length as u64)
            .map_err(number),
    )
}

#[inline]
pub fn refile_frames(message: &[u8], frame_length: u32, table: &mut [u32], out: &mut [u8]) -> u64 {
    told(
        bafirolen::read_frames(message, 0, frame_length, table)
            .and_then(|read| {
                bafirolen::write_frames(frame_length, message, read.frame_table(), out)
            })
            .map(|length| length as u64)
            .map_err(number),
    )
}

#[inline]
pub fn read_body(message: &[u8], pairs: &mut [u32], keys: &mut [u32]) -> u64 {
    told(
        bafirolen::read_header_body(message, 0, Request::default(), pairs, keys)
            .map(|body| body.tail)
            .map_err(number),
    )
}

/// Of a front of a message: the tail, or number and position of the refusal.
#[inline]
pub fn read_front(front: &[u8], pairs: &mut [u32], keys: &mut [u32]) -> Result<u64, (u32, u64)> {
    bafirolen::read_header_body(front, 0, Request::default(), pairs, keys)
        .map(|body| body.tail)
        .map_err(|refusal| (refusal.number(), refusal.position()))
}

#[inline]
pub fn read_body_under(policy: Policy, message: &[u8], pairs: &mut [u32], keys: &mut [u32]) -> u64 {
    let request = Request::default().under(policy);
    told(
        bafirolen::read_header_body(message, 0, request, pairs, keys)
            .map(|body| body.tail)
            .map_err(number),
    )
}

#[inline]
fn draft<'a>(fields: &'a Fields, lent: &'a Lent) -> Draft<'a> {
    let (suite, content_type, frame_length) =
        (fields.suite, fields.content_type, fields.frame_length);
    let numbers = match fields.version {
        1 => Numbers::version_1(suite, content_type, frame_length),
        _ => Numbers::version_2(suite, content_type, frame_length),
    };
    let form = match image::Form::marked(fields.form) {
        image::Form::Today => Form::Today,
        image::Form::Old => Form::Old,
    };
    Draft::new(numbers.with_form(form), &fields.id)
        .with_suite_data(&fields.suite_data)
        .with_tables(&lent.text, &lent.pairs, &lent.keys)
}

#[inline]
pub fn write_body(fields: &Fields, lent: &Lent, out: &mut [u8]) -> u64 {
    told(
        bafirolen::write_header_body(&draft(fields, lent), out)
            .map(|length| length as u64)
            .map_err(number),
    )
}

#[inline]
pub fn write_body_under(policy: Policy, fields: &Fields, lent: &Lent, out: &mut [u8]) -> u64 {
    told(
        bafirolen::write_header_body(&draft(fields, lent).under(policy), out)
            .map(|length| length as u64)
            .map_err(number),
    )
}

#[inline]
pub fn body_len(fields: &Fields, lent: &Lent) -> u64 {
    told(
        bafirolen::header_body_len(&draft(fields, lent))
            .map(|length| length as u64)
            .map_err(number),
    )
}

/// Into just as much of the output as the body takes.
#[inline]
pub fn measure_and_write_body(fields: &Fields, lent: &Lent, out: &mut [u8]) -> u64 {
    let draft = draft(fields, lent);
    told(
        bafirolen::header_body_len(&draft)
            .and_then(|length| bafirolen::write_header_body(&draft, &mut out[..length]))
            .map(|length| length as u64)
            .map_err(number),
    )
}

#[inline]
pub fn refile_body(message: &[u8], pairs: &mut [u32], keys: &mut [u32], out: &mut [u8]) -> u64 {
    told(
        bafirolen::read_header_body(message, 0, Request::default(), pairs, keys)
            .and_then(|body| bafirolen::write_header_body(&body.draft(), out))
            .map(|length| length as u64)
            .map_err(number),
    )
}

#[inline]
pub fn drop_keys(draft: &mut [u8], provider_id: &[u8]) -> u64 {
    told(
        bafirolen::drop_encrypted_data_keys(draft, provider_id)
            .map(|tail| tail as u64)
            .map_err(number),
    )
}

#[inline]
pub fn add_key(draft: &mut [u8], [id, info, ciphertext]: &generator::Key) -> u64 {
    let key = Key {
        provider_id: id,
        provider_info: info,
        ciphertext,
    };
    told(
        bafirolen::add_encrypted_data_key(draft, key)
            .map(|tail| tail as u64)
            .map_err(number),
    )
}

#[inline]
pub fn reissue(message: &[u8], added: Added, out: &mut [u8]) -> u64 {
    let reissue = Reissue {
        suite: added.suite,
        message_id: added.id,
        suite_data: added.suite_data,
    };
    told(
        bafirolen::reissue_header_body(message, 0, &reissue, out)
            .map(|length| length as u64)
            .map_err(number),
    )
}

/// The same body by a reader and the writer.
#[inline]
pub fn read_and_write_anew(
    message: &[u8],
    added: Added,
    (pairs, keys): (&mut Vec<u32>, &mut Vec<u32>),
    out: &mut [u8],
) -> u64 {
    let request = Request::default().only(Which::V1Only);
    told(
        bafirolen::read_header_body(message, 0, request, pairs, keys)
            .and_then(|body| {
                let (content, length) = (body.numbers.content_type, body.numbers.frame_length);
                let numbers = Numbers::version_2(added.suite, content, length);
                let draft = Draft::new(numbers, added.id)
                    .with_suite_data(added.suite_data)
                    .with_tables(message, body.pair_table(), body.key_table());
                bafirolen::write_header_body(&draft, out)
            })
            .map(|length| length as u64)
            .map_err(number),
    )
}

#[inline]
pub fn write_listing(message: &[u8], out: &mut [u8]) -> u64 {
    told(
        bafirolen::write_listing(message, out)
            .map(|length| length as u64)
            .map_err(number),
    )
}
