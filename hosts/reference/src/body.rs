//! Reading a header body of either version.

use crate::context::{self, Mode};
use crate::keys;
use crate::leaves::{read_bytes, read_u16, read_u32, read_u8, Place};
use crate::policy::Policy;
use crate::refusal::*;
use crate::suites::{lookup, Suite};

/// The only message type of version 1.
pub const TYPE_V1: u32 = 0x80;
pub const NON_FRAMED: u32 = 1;
pub const FRAMED: u32 = 2;
/// The forms of a body: an empty context is 00 00 today, and was 00 02 00 00.
pub const TODAY: u32 = 0;
pub const OLD: u32 = 1;

/// Which reader: either version, or one only. Those of one version refuse the
/// other with 4 and don't hold the frame length against the content type.
#[derive(Clone, Copy, Debug, PartialEq, Eq)]
pub enum Which {
    Either,
    V1,
    V2,
}

/// What is asked of a body reader: which one, how it takes the context, the
/// most keys, and the policy it reads under.
#[derive(Clone, Copy, Debug, PartialEq, Eq)]
pub struct Request {
    pub which: Which,
    pub mode: Mode,
    pub max: Option<u64>,
    pub policy: Policy,
}

/// An accepted body. Type, IV length and suite data are 0 (start 0, length 0)
/// in the version that lacks them. The form is `OLD` where the context is empty
/// and was stored as it once was, otherwise `TODAY`.
#[derive(Clone, Copy, Debug, PartialEq, Eq)]
pub struct Body {
    pub version: u32,
    pub message_type: u32,
    pub suite: u32,
    pub id: Place,
    pub pairs: u32,
    pub keys: u32,
    pub content_type: u32,
    pub iv_length: u32,
    pub frame_length: u32,
    pub form: u32,
    pub suite_data: Place,
    pub tail: u64,
}

/// The length of a message ID by version.
pub(crate) fn id_length(version: u32) -> u64 {
    if version == 1 {
        16
    } else {
        32
    }
}

/// Framed content needs a frame length above 0, non-framed needs 0.
pub(crate) fn frame_fits(content_type: u32, frame_length: u32) -> bool {
    (content_type == FRAMED) == (frame_length > 0)
}

/// Reads a header body without a policy.
pub fn read_header_body(
    message: &[u8],
    start: u64,
    which: Which,
    mode: Mode,
    max: Option<u64>,
    pairs: &mut [u32],
    keys: &mut [u32],
) -> Result<Body, Refusal> {
    let request = Request {
        which,
        mode,
        max,
        policy: Policy::None,
    };
    read_header_body_under_policy(message, start, request, pairs, keys)
}

/// Reads a header body: all of its tests, which end in 22 and 23.
///
/// The one-version readers take the mode as well. Tolerant, they are the
/// readers of one version as the source has them; strict, they also refuse
/// the old form with 21, as the strict reader of either version does.
pub fn read_header_body_under_policy(
    message: &[u8],
    start: u64,
    request: Request,
    pairs: &mut [u32],
    keys: &mut [u32],
) -> Result<Body, Refusal> {
    let walked = walk(message, start, request)?;
    // The tables come last, so that a short one never hides a bad header.
    if !walked.pairs.fits(pairs) {
        return Err(Refusal::of(PAIR_TABLE));
    }
    if !walked.keys.fits(keys) {
        return Err(Refusal::of(KEY_TABLE));
    }
    walked.pairs.fill(message, pairs);
    walked.keys.fill(message, keys);
    Ok(walked.body)
}

/// A body that passed every test but those of the tables, and its sections.
pub(crate) struct Walked {
    pub body: Body,
    pub pairs: context::Section,
    pub keys: keys::Section,
}

/// All tests of a body but 22 and 23, in order: 1; 2, 3; 4; version 1: 2, 5;
/// 2, 6; 7; 39; 2 at the ID; the context's; the keys'; 2, 17; version 1: 2, 18,
/// 2, 19; 2 at the frame length; version 2: 2 at the suite data; 20.
#[inline]
pub(crate) fn walk(message: &[u8], start: u64, request: Request) -> Result<Walked, Refusal> {
    test_sizes(message, start)?;
    let (version, at) = read_version(message, start, request.which)?;
    let (message_type, at) = match version {
        1 => read_type(message, at)?,
        _ => (0, at),
    };
    let (suite, at) = read_suite(message, at, version)?;
    request.policy.test_read(suite)?;
    let id = read_bytes(message, at, id_length(version))?;
    let pair_section = context::walk(message, id.end(), request.mode)?;
    let key_section = keys::walk(message, pair_section.tail, request.max)?;
    let (content_type, at) = read_content_type(message, key_section.tail)?;
    let (iv_length, at) = match version {
        1 => read_reserved_and_iv_length(message, at)?,
        _ => (0, at),
    };
    let (frame_length, at) = read_u32(message, at)?;
    let (suite_data, tail) = match version {
        1 => (Place::default(), at),
        _ => {
            let place = read_bytes(message, at, Suite::COMMIT_LEN)?;
            (place, place.end())
        }
    };
    if request.which == Which::Either && !frame_fits(content_type, frame_length) {
        return Err(Refusal::of(FRAME_LENGTH));
    }
    let body = Body {
        version,
        message_type,
        suite: suite.number,
        id,
        pairs: pair_section.count,
        keys: key_section.count,
        content_type,
        iv_length,
        frame_length,
        form: if pair_section.old { OLD } else { TODAY },
        suite_data,
        tail,
    };
    Ok(Walked {
        body,
        pairs: pair_section,
        keys: key_section,
    })
}

fn read_version(message: &[u8], at: u64, which: Which) -> Result<(u32, u64), Refusal> {
    let (version, tail) = read_u8(message, at)?;
    match (version, which) {
        (1, Which::Either | Which::V1) | (2, Which::Either | Which::V2) => {
            Ok((u32::from(version), tail))
        }
        (1 | 2, _) => Err(Refusal::of(OTHER_VERSION)),
        _ => Err(Refusal::of(VERSION)),
    }
}

fn read_type(message: &[u8], at: u64) -> Result<(u32, u64), Refusal> {
    let (message_type, tail) = read_u8(message, at)?;
    if u32::from(message_type) != TYPE_V1 {
        return Err(Refusal::of(TYPE));
    }
    Ok((TYPE_V1, tail))
}

fn read_suite(message: &[u8], at: u64, version: u32) -> Result<(Suite, u64), Refusal> {
    let (number, tail) = read_u16(message, at)?;
    let suite = lookup(u32::from(number)).ok_or(Refusal::of(UNKNOWN_SUITE))?;
    if suite.version != version {
        return Err(Refusal::of(SUITE_OF_OTHER_VERSION));
    }
    Ok((suite, tail))
}

fn read_content_type(message: &[u8], at: u64) -> Result<(u32, u64), Refusal> {
    let (byte, tail) = read_u8(message, at)?;
    let content_type = u32::from(byte);
    if content_type != NON_FRAMED && content_type != FRAMED {
        return Err(Refusal::of(CONTENT_TYPE));
    }
    Ok((content_type, tail))
}

fn read_reserved_and_iv_length(message: &[u8], at: u64) -> Result<(u32, u64), Refusal> {
    let (reserved, at) = read_u32(message, at)?;
    if reserved != 0 {
        return Err(Refusal::of(RESERVED));
    }
    let (iv_length, tail) = read_u8(message, at)?;
    if u64::from(iv_length) != Suite::IV_LEN {
        return Err(Refusal::of(IV_LENGTH));
    }
    Ok((u32::from(iv_length), tail))
}
