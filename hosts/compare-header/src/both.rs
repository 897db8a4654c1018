//! Ours and the separate implementation at once, as the rows that are written
//! by hand ask them: what both answered is what the row has.

use crate::crossing;
use crate::numbers::{self, answered, numbers, Answer};
use crate::records::list;
use crate::{lengths, reads, request, under_policy, writes};
use bafirolen::{Draft, Mode, Which};
use bafirolen_sys::BafirolenBody;
use generator::rows::{Asked, Body, Codec, Lent, Place, Record, Refused, Section, Written};

/// Hands each request to both; the tables and outputs afterwards are both's.
pub struct Both;

/// An answer as the rows have it.
pub(crate) fn row<T, R>(answer: Answer<T>, accepted: impl FnOnce(T) -> R) -> Result<R, Refused> {
    let refused = answered(&answer);
    answer.map(accepted).map_err(|_| refused)
}

pub(crate) fn mode(strict: bool) -> Mode {
    if strict {
        Mode::Strict
    } else {
        Mode::Tolerant
    }
}

pub(crate) fn which(version: u32) -> Which {
    match version {
        0 => Which::Either,
        1 => Which::V1Only,
        _ => Which::V2Only,
    }
}

/// A row's request in the numbers that cross.
pub(crate) fn crossed(asked: Asked) -> crossing::Asked {
    crossing::Asked {
        which: asked.version,
        mode: asked.strict.into(),
        has_max: asked.max.is_some().into(),
        max: asked.max.unwrap_or(0),
    }
}

/// What was written, copied to the output that is lent.
pub(crate) fn written((answer, after): (Answer<usize>, Vec<u8>), out: &mut [u8]) -> Written {
    out.copy_from_slice(&after);
    row(answer, |length| length as u64)
}

fn draft(lent: Lent) -> Draft {
    Draft::new(numbers(&reference::Numbers::from(lent.numbers)), lent.id)
        .with_suite_data(lent.suite_data)
        .with_tables(lent.text, lent.pairs, lent.keys)
}

fn body(body: reference::Body) -> Body {
    let numbers = body.numbers();
    let place = |place: reference::Place| (place.start, place.len);
    Body {
        numbers: [
            numbers.version,
            numbers.message_type,
            numbers.suite,
            numbers.content_type,
            numbers.iv_length,
            numbers.frame_length,
            numbers.form,
        ],
        id: place(body.id),
        pairs: body.pairs,
        keys: body.keys,
        suite_data: place(body.suite_data),
        tail: body.tail,
    }
}

/// What a record says was read.
fn read(record: BafirolenBody) -> Result<Body, Refused> {
    match record.number {
        0 => Ok(Body {
            numbers: list(record.numbers),
            id: (record.message_id_start, record.message_id_len),
            pairs: record.pair_count as u32,
            keys: record.key_count as u32,
            suite_data: (record.suite_data_start, record.suite_data_len),
            tail: record.tail,
        }),
        number => Err((number as u32, record.position)),
    }
}

impl Codec for Both {
    fn read_section(&self, message: &[u8], start: u64, strict: bool, table: &mut [u32]) -> Section {
        let (answer, after) = reads::read_aad_section(message, start, mode(strict), table);
        table.copy_from_slice(&after);
        row(answer, |read| (read.count as u32, read.tail))
    }

    fn read_keys(
        &self,
        message: &[u8],
        start: u64,
        max: Option<u64>,
        table: &mut [u32],
    ) -> Section {
        let (answer, after) = reads::read_encrypted_data_keys_section(message, start, max, table);
        table.copy_from_slice(&after);
        row(answer, |read| (read.count as u32, read.tail))
    }

    fn read_body(
        &self,
        message: &[u8],
        asked: Asked,
        pairs: &mut [u32],
        keys: &mut [u32],
    ) -> Result<Body, Refused> {
        let request = request(which(asked.version), mode(asked.strict), asked.max);
        let (answer, tables) = reads::read_header_body(message, asked.start, request, pairs, keys);
        // The records were compared whole, so the other's stands for ours.
        let theirs = reference::read_header_body(
            message,
            asked.start,
            numbers::which(request.which),
            numbers::mode(request.mode),
            asked.max,
            pairs,
            keys,
        );
        pairs.copy_from_slice(&tables.pairs);
        keys.copy_from_slice(&tables.keys);
        row(answer, |_| body(theirs.expect("ours was accepted")))
    }

    fn read_body_under(
        &self,
        policy: u32,
        message: &[u8],
        asked: Asked,
        pairs: &mut [u32],
        keys: &mut [u32],
    ) -> Result<Body, Refused> {
        let message = (message, asked.start);
        let (record, tables) =
            under_policy::read_header_body(policy, message, crossed(asked), pairs, keys);
        pairs.copy_from_slice(&tables.pairs);
        keys.copy_from_slice(&tables.keys);
        read(record)
    }

    fn read_record(&self, message: &[u8], start: u64, suite: u32) -> Record {
        let answer = reads::read_header_auth_tag(message, start, suite);
        row(answer, |record| (record.iv, record.tag, record.tail))
    }

    fn read_frames(&self, message: &[u8], start: u64, length: u32, table: &mut [u32]) -> Section {
        let (answer, after) = reads::read_frames(message, start, length, table);
        table.copy_from_slice(&after);
        row(answer, |read| (read.count as u32, read.tail))
    }

    fn find(&self, message: &[u8], start: u64, key: &[u8]) -> Result<Place, Refused> {
        let answer = reads::find_value(message, start, key);
        row(answer, |place| (place.start, place.len))
    }

    fn find_part<'a>(&self, message: &'a [u8], start: u64, key: &[u8]) -> &'a [u8] {
        bafirolen::find_part(message, start, key)
    }

    fn host_answer(&self, message: &[u8], start: u64) -> (u32, u64) {
        reads::host_answer(message, start)
    }

    fn write_section(&self, text: &[u8], table: &[u32], out: &mut [u8]) -> Written {
        written(writes::write_aad_section(text, table, out), out)
    }

    fn write_keys(&self, text: &[u8], table: &[u32], out: &mut [u8]) -> Written {
        written(
            writes::write_encrypted_data_keys_section(text, table, out),
            out,
        )
    }

    fn body_len(&self, lent: Lent) -> Written {
        let answer = lengths::header_body_len(&draft(lent));
        row(answer, |length| length as u64)
    }

    fn write_body(&self, lent: Lent, out: &mut [u8]) -> Written {
        written(writes::write_header_body(draft(lent), out), out)
    }

    fn body_len_under(&self, policy: u32, lent: Lent) -> Written {
        let answer = under_policy::header_body_len(policy, lent);
        row(answer, |length| length as u64)
    }

    fn write_body_under(&self, policy: u32, lent: Lent, out: &mut [u8]) -> Written {
        written(under_policy::write_header_body(policy, lent, out), out)
    }

    fn frames_len(&self, length: u32, text: &[u8], table: &[u32]) -> Written {
        let answer = lengths::frames_len(length, text, table);
        row(answer, |length| length as u64)
    }

    fn write_frames(&self, length: u32, text: &[u8], table: &[u32], out: &mut [u8]) -> Written {
        written(writes::write_frames(length, text, table, out), out)
    }

    fn write_record(&self, suite: u32, iv: &[u8], tag: &[u8], out: &mut [u8]) -> Written {
        written(writes::write_header_auth_tag(suite, iv, tag, out), out)
    }

    fn write_only_authenticated(
        &self,
        message: &[u8],
        start: u64,
        text: &[u8],
        required: &[u32],
        out: &mut [u8],
    ) -> Written {
        let answer = writes::write_only_authenticated(message, start, text, required, out);
        written(answer, out)
    }
}

/// The listing by the exported operation, in an output that is long enough.
pub fn listing(message: &[u8]) -> Vec<u8> {
    let out = vec![0xEE; 2 * message.len() + 200_000];
    let (answer, mut out) = writes::write_listing(message, &out);
    out.truncate(answer.expect("there is room"));
    out
}
