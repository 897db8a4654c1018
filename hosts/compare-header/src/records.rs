//! What crosses the boundary: the numbers that are asked with, and the answers
//! of the separate implementation as the records that ours has to give.

use crate::numbers::Answer;
use bafirolen::Refusal;
use bafirolen_sys::{BafirolenBody, BafirolenNumbers, BafirolenWritten};

/// Any number but 0 asks for a strict reader.
pub fn mode_of(mode: u32) -> reference::Mode {
    if mode == 0 {
        reference::Mode::Tolerant
    } else {
        reference::Mode::Strict
    }
}

/// Any number but 1 and 2 asks for either version.
pub fn which_of(which: u32) -> reference::Which {
    match which {
        1 => reference::Which::V1,
        2 => reference::Which::V2,
        _ => reference::Which::Either,
    }
}

/// The numbers of a body in the order of their fields.
pub fn numbers(list: [u32; 7]) -> BafirolenNumbers {
    let [version, message_type, suite, content_type, header_iv_length, frame_length, form] = list;
    BafirolenNumbers {
        version,
        message_type,
        suite,
        content_type,
        header_iv_length,
        frame_length,
        form,
    }
}

/// The other way.
pub fn list(numbers: BafirolenNumbers) -> [u32; 7] {
    [
        numbers.version,
        numbers.message_type,
        numbers.suite,
        numbers.content_type,
        numbers.header_iv_length,
        numbers.frame_length,
        numbers.form,
    ]
}

fn numbers_of(body: reference::Body) -> BafirolenNumbers {
    BafirolenNumbers {
        version: body.version,
        message_type: body.message_type,
        suite: body.suite,
        content_type: body.content_type,
        header_iv_length: body.iv_length,
        frame_length: body.frame_length,
        form: body.form,
    }
}

/// Number and position, zeros where there is no refusal.
pub fn refusal<T>(answer: &Result<T, reference::Refusal>) -> (u64, u64) {
    match answer {
        Ok(_) => (0, 0),
        Err(refusal) => (refusal.number.into(), refusal.position),
    }
}

/// The record of a body that was read or refused.
pub fn body(answer: Result<reference::Body, reference::Refusal>) -> BafirolenBody {
    let (number, position) = refusal(&answer);
    let body = answer.ok();
    let of = |field: fn(reference::Body) -> u64| body.map_or(0, field);
    BafirolenBody {
        number,
        position,
        numbers: body.map_or_else(BafirolenNumbers::default, numbers_of),
        message_id_start: of(|body| body.id.start),
        message_id_len: of(|body| body.id.len),
        pair_count: of(|body| body.pairs.into()),
        key_count: of(|body| body.keys.into()),
        suite_data_start: of(|body| body.suite_data.start),
        suite_data_len: of(|body| body.suite_data.len),
        tail: of(|body| body.tail),
    }
}

/// The record of what was written or refused.
pub fn written(answer: Result<u64, reference::Refusal>) -> BafirolenWritten {
    let (number, position) = refusal(&answer);
    BafirolenWritten {
        number,
        position,
        length: answer.unwrap_or(0),
    }
}

/// What a record says was written; a refusal has no length.
pub fn answer(record: BafirolenWritten) -> Answer<usize> {
    match (record.number, record.length) {
        (0, length) => {
            assert_eq!(record.position, 0, "{record:?}");
            Ok(length as usize)
        }
        (number, 0) => Err(Refusal::from_number(number as u32, record.position)),
        _ => panic!("refused, with a length: {record:?}"),
    }
}
