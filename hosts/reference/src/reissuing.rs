//! A draft of version 1 reissued: what it says is read, and written again as a
//! body of version 2, with an ID, a suite and suite data that are new.
//!
//! What stands behind the draft, such as an authentication record, is neither
//! read nor written.

use crate::body::{frame_fits, walk, Request, Walked, Which, TODAY};
use crate::body_write::{header_body_len_under_policy, write_header_body_under_policy};
use crate::body_write::{Draft, Numbers};
use crate::context::Mode;
use crate::policy::Policy;
use crate::refusal::{Refusal, FRAME_LENGTH};
use crate::tables::{NUMBERS_A_KEY, NUMBERS_A_PAIR};

/// What a draft gets to become a body of version 2.
#[derive(Clone, Copy, Debug)]
pub struct Reissue<'a> {
    pub suite: u32,
    pub id: &'a [u8],
    pub suite_data: &'a [u8],
}

/// How the draft is read; a body of version 2 is refused by 4.
const READ: Request = Request {
    which: Which::V1,
    mode: Mode::Tolerant,
    max: None,
    policy: Policy::None,
};

/// Reads the draft, and hands on what is to be written: the pairs and keys with
/// their places in the message, an empty context in today's form. What reading
/// refuses without tables; 20, which the reader of one version doesn't test.
fn reissued(
    message: &[u8],
    start: u64,
    reissue: &Reissue,
    then: impl FnOnce(&Draft) -> Result<u64, Refusal>,
) -> Result<u64, Refusal> {
    let Walked { body, pairs, keys } = walk(message, start, READ)?;
    if !frame_fits(body.content_type, body.frame_length) {
        return Err(Refusal::of(FRAME_LENGTH));
    }
    let mut pair_table = vec![0; NUMBERS_A_PAIR * body.pairs as usize];
    let mut key_table = vec![0; NUMBERS_A_KEY * body.keys as usize];
    pairs.fill(message, &mut pair_table);
    keys.fill(message, &mut key_table);
    let numbers = Numbers {
        version: 2,
        message_type: 0,
        suite: reissue.suite,
        content_type: body.content_type,
        iv_length: 0,
        frame_length: body.frame_length,
        form: TODAY,
    };
    then(&Draft {
        numbers,
        id: reissue.id,
        suite_data: reissue.suite_data,
        text: message,
        pairs: &pair_table,
        keys: &key_table,
    })
}

/// Writes the body of version 2 from the output's first byte; answers its
/// length. What reading the draft refuses, then 20; then what writing refuses
/// of what is new: 6; 7; 24; 25; 28.
pub fn reissue_header_body(
    message: &[u8],
    start: u64,
    reissue: &Reissue,
    out: &mut [u8],
) -> Result<u64, Refusal> {
    reissued(message, start, reissue, |draft| {
        write_header_body_under_policy(Policy::None, draft, out)
    })
}

/// Says, without an output, how many bytes that body takes. The same but 28.
pub fn reissued_header_body_len(
    message: &[u8],
    start: u64,
    reissue: &Reissue,
) -> Result<u64, Refusal> {
    reissued(message, start, reissue, |draft| {
        header_body_len_under_policy(Policy::None, draft)
    })
}
