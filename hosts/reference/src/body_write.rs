//! Writing a header body of either version.

use crate::body::{frame_fits, id_length, Body, FRAMED, NON_FRAMED, TODAY, TYPE_V1};
use crate::context_write;
use crate::keys;
use crate::leaves::put;
use crate::policy::Policy;
use crate::refusal::*;
use crate::suites::{lookup, Suite};

/// An empty context as it was stored once.
const OLD_EMPTY: [u8; 4] = [0, 2, 0, 0];

/// The fields of a body that are numbers, and the mark of its form: `TODAY`,
/// or any other number for old.
#[derive(Clone, Copy, Debug, Default, PartialEq, Eq)]
pub struct Numbers {
    pub version: u32,
    pub message_type: u32,
    pub suite: u32,
    pub content_type: u32,
    pub iv_length: u32,
    pub frame_length: u32,
    pub form: u32,
}

impl From<[u32; 7]> for Numbers {
    /// From the numbers in the order of the fields above.
    fn from(list: [u32; 7]) -> Numbers {
        let [version, message_type, suite, content_type, iv_length, frame_length, form] = list;
        Numbers {
            version,
            message_type,
            suite,
            content_type,
            iv_length,
            frame_length,
            form,
        }
    }
}

impl Body {
    /// The numbers a writer needs to write this body again.
    pub fn numbers(&self) -> Numbers {
        Numbers {
            version: self.version,
            message_type: self.message_type,
            suite: self.suite,
            content_type: self.content_type,
            iv_length: self.iv_length,
            frame_length: self.frame_length,
            form: self.form,
        }
    }
}

/// What a body is written from. Pairs and keys have their places in one text.
#[derive(Clone, Copy, Debug)]
pub struct Draft<'a> {
    pub numbers: Numbers,
    pub id: &'a [u8],
    pub suite_data: &'a [u8],
    pub text: &'a [u8],
    pub pairs: &'a [u32],
    pub keys: &'a [u32],
}

/// Refusals 3, 5, 6, 7 and 39: the numbers that stand before the ID.
fn test_front(policy: Policy, numbers: &Numbers) -> Result<(), Refusal> {
    let wanted_type = match numbers.version {
        1 => TYPE_V1,
        2 => 0,
        _ => return Err(Refusal::of(VERSION)),
    };
    if numbers.message_type != wanted_type {
        return Err(Refusal::of(TYPE));
    }
    let suite = lookup(numbers.suite).ok_or(Refusal::of(UNKNOWN_SUITE))?;
    if suite.version != numbers.version {
        return Err(Refusal::of(SUITE_OF_OTHER_VERSION));
    }
    policy.test_write(suite)
}

/// The pairs' refusals but 28, then 33; answers the context section's length.
/// Only an empty context has an old form.
fn test_context(numbers: &Numbers, text: &[u8], pairs: &[u32]) -> Result<u64, Refusal> {
    let length = context_write::test_pairs(text, pairs)?;
    if numbers.form == TODAY {
        return Ok(length);
    }
    if !pairs.is_empty() {
        return Err(Refusal::of(PAIR_IN_OLD_FORM));
    }
    Ok(OLD_EMPTY.len() as u64)
}

/// Refusals 17, 19, 25 and 20: what stands behind the keys.
fn test_back(numbers: &Numbers, suite_data: &[u8]) -> Result<(), Refusal> {
    if numbers.content_type != NON_FRAMED && numbers.content_type != FRAMED {
        return Err(Refusal::of(CONTENT_TYPE));
    }
    let (iv_length, data_length) = match numbers.version {
        1 => (Suite::IV_LEN, 0),
        _ => (0, Suite::COMMIT_LEN),
    };
    if u64::from(numbers.iv_length) != iv_length {
        return Err(Refusal::of(IV_LENGTH));
    }
    if suite_data.len() as u64 != data_length {
        return Err(Refusal::of(SUITE_DATA));
    }
    if !frame_fits(numbers.content_type, numbers.frame_length) {
        return Err(Refusal::of(FRAME_LENGTH));
    }
    Ok(())
}

/// Says how many bytes a body takes when it is written without a policy.
pub fn header_body_len(
    numbers: &Numbers,
    id: &[u8],
    suite_data: &[u8],
    text: &[u8],
    pairs: &[u32],
    keys: &[u32],
) -> Result<u64, Refusal> {
    let draft = Draft {
        numbers: *numbers,
        id,
        suite_data,
        text,
        pairs,
        keys,
    };
    header_body_len_under_policy(Policy::None, &draft)
}

/// Says, without an output, how many bytes a body takes when it is written.
/// 3; 5; 6; 7; 39; 24; the pairs' but 28; 33; the keys' but 28; 17; 19; 25; 20.
pub fn header_body_len_under_policy(policy: Policy, draft: &Draft) -> Result<u64, Refusal> {
    let numbers = &draft.numbers;
    test_front(policy, numbers)?;
    if draft.id.len() as u64 != id_length(numbers.version) {
        return Err(Refusal::of(ID_LENGTH));
    }
    let pairs_length = test_context(numbers, draft.text, draft.pairs)?;
    let keys_length = keys::test_keys(draft.text, draft.keys)?;
    test_back(numbers, draft.suite_data)?;
    let front_length = match numbers.version {
        1 => 4 + 16,
        _ => 3 + 32,
    };
    let back_length = match numbers.version {
        1 => 1 + 4 + 1 + 4,
        _ => 1 + 4 + Suite::COMMIT_LEN,
    };
    Ok(front_length + pairs_length + keys_length + back_length)
}

/// Writes a body without a policy.
pub fn write_header_body(
    numbers: &Numbers,
    id: &[u8],
    suite_data: &[u8],
    text: &[u8],
    pairs: &[u32],
    keys: &[u32],
    out: &mut [u8],
) -> Result<u64, Refusal> {
    let draft = Draft {
        numbers: *numbers,
        id,
        suite_data,
        text,
        pairs,
        keys,
    };
    write_header_body_under_policy(Policy::None, &draft, out)
}

/// Writes a body from the output's first byte; answers its length. What its
/// length is refused by; 28.
pub fn write_header_body_under_policy(
    policy: Policy,
    draft: &Draft,
    out: &mut [u8],
) -> Result<u64, Refusal> {
    let length = header_body_len_under_policy(policy, draft)?;
    if length > out.len() as u64 {
        return Err(Refusal::of(OUTPUT));
    }
    let numbers = &draft.numbers;
    let mut at = put_front(numbers, draft.id, out);
    at += put_context(numbers, draft.text, draft.pairs, &mut out[at..]);
    at += keys::put_section(draft.text, draft.keys, &mut out[at..]);
    put_back(numbers, draft.suite_data, &mut out[at..]);
    Ok(length)
}

fn put_front(numbers: &Numbers, id: &[u8], out: &mut [u8]) -> usize {
    let mut at = put(out, 0, &[numbers.version as u8]);
    if numbers.version == 1 {
        at = put(out, at, &[numbers.message_type as u8]);
    }
    at = put(out, at, &(numbers.suite as u16).to_be_bytes());
    put(out, at, id)
}

/// Writes a tested context; answers the place after it.
fn put_context(numbers: &Numbers, text: &[u8], pairs: &[u32], out: &mut [u8]) -> usize {
    if numbers.form != TODAY {
        return put(out, 0, &OLD_EMPTY);
    }
    context_write::put_section(text, pairs, out)
}

fn put_back(numbers: &Numbers, suite_data: &[u8], out: &mut [u8]) {
    let mut at = put(out, 0, &[numbers.content_type as u8]);
    if numbers.version == 1 {
        at = put(out, at, &[0, 0, 0, 0, numbers.iv_length as u8]);
    }
    at = put(out, at, &numbers.frame_length.to_be_bytes());
    put(out, at, suite_data);
}
