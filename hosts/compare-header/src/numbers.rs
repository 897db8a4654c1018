//! Answers that own what they say, so that ours and those of the separate
//! implementation can be held against each other once nothing is lent.

use bafirolen::{Context, Form, Frames, KeySection, Mode, Numbers, Place, Refusal, Which};
use bafirolen::{Draft, Policy, Request};
use reference::body::{OLD, TODAY};

/// An answer: what was accepted, or the refusal.
pub type Answer<T> = Result<T, Refusal>;

/// A section that was read, or frames.
#[derive(Clone, Copy, Debug, PartialEq, Eq)]
pub struct Section {
    pub count: usize,
    pub tail: u64,
}

/// A body that was read.
#[derive(Clone, Copy, Debug, PartialEq, Eq)]
pub struct Body {
    pub numbers: Numbers,
    pub message_id: Place,
    pub pair_count: usize,
    pub key_count: usize,
    pub suite_data: Place,
    pub context_start: u64,
    pub tail: u64,
}

/// An authentication record that was read.
#[derive(Clone, Copy, Debug, PartialEq, Eq)]
pub struct AuthRecord {
    pub iv: [u8; 12],
    pub tag: [u8; 16],
    pub tail: u64,
}

/// The refusal's number, 0 where there is none.
pub fn number<T>(answer: &Answer<T>) -> u32 {
    answer.as_ref().err().map_or(0, Refusal::number)
}

/// An answer of ours.
pub trait Ours {
    type Owned;
    fn owned(&self) -> Self::Owned;
}

impl Ours for Context<'_, '_> {
    type Owned = Section;
    fn owned(&self) -> Section {
        Section {
            count: self.pairs().len(),
            tail: self.tail,
        }
    }
}

impl Ours for KeySection<'_, '_> {
    type Owned = Section;
    fn owned(&self) -> Section {
        Section {
            count: self.keys().len(),
            tail: self.tail,
        }
    }
}

impl Ours for Frames<'_, '_> {
    type Owned = Section;
    fn owned(&self) -> Section {
        Section {
            count: self.len(),
            tail: self.tail(),
        }
    }
}

impl Ours for bafirolen::Body<'_, '_> {
    type Owned = Body;
    fn owned(&self) -> Body {
        Body {
            numbers: self.numbers,
            message_id: self.message_id_place(),
            pair_count: self.pairs().len(),
            key_count: self.keys().len(),
            suite_data: self.suite_data_place(),
            context_start: self.context_start(),
            tail: self.tail,
        }
    }
}

impl Ours for bafirolen::AuthRecord {
    type Owned = AuthRecord;
    fn owned(&self) -> AuthRecord {
        AuthRecord {
            iv: self.iv,
            tag: self.tag,
            tail: self.tail,
        }
    }
}

/// The position that a shortage wants, 0 where there is none.
pub fn position<T>(answer: &Answer<T>) -> u64 {
    answer
        .as_ref()
        .err()
        .map_or(0, |refusal| refusal.position())
}

/// The refusal's number and position, zeros where there is none.
pub fn answered<T>(answer: &Answer<T>) -> (u32, u64) {
    (number(answer), position(answer))
}

pub fn mode(mode: Mode) -> reference::Mode {
    match mode {
        Mode::Tolerant => reference::Mode::Tolerant,
        Mode::Strict => reference::Mode::Strict,
    }
}

pub fn which(which: Which) -> reference::Which {
    match which {
        Which::Either => reference::Which::Either,
        Which::V1Only => reference::Which::V1,
        Which::V2Only => reference::Which::V2,
    }
}

/// Ours names a policy or doesn't, and has none that is unknown.
pub fn policy(policy: Option<Policy>) -> reference::Policy {
    match policy {
        None => reference::Policy::None,
        Some(Policy::ForbidEncryptAllowDecrypt) => reference::Policy::ForbidEncryptAllowDecrypt,
        Some(Policy::RequireEncryptAllowDecrypt) => reference::Policy::RequireEncryptAllowDecrypt,
        Some(Policy::RequireEncryptRequireDecrypt) => {
            reference::Policy::RequireEncryptRequireDecrypt
        }
    }
}

pub fn request(request: Request) -> reference::Request {
    reference::Request {
        which: which(request.which),
        mode: mode(request.mode),
        max: request.max,
        policy: policy(request.policy),
    }
}

pub fn draft<'a>(ours: &Draft<'a>) -> reference::Draft<'a> {
    reference::Draft {
        numbers: their_numbers(ours.numbers),
        id: ours.message_id,
        suite_data: ours.suite_data,
        text: ours.text,
        pairs: ours.pairs,
        keys: ours.keys,
    }
}

/// The form of a mark; ours has no other marks than a reader gives.
pub fn form(mark: u32) -> Form {
    match mark {
        TODAY => Form::Today,
        _ => Form::Old,
    }
}

pub fn numbers(theirs: &reference::Numbers) -> Numbers {
    let mut ours = Numbers::default();
    ours.version = theirs.version;
    ours.message_type = theirs.message_type;
    ours.suite = theirs.suite;
    ours.content_type = theirs.content_type;
    ours.header_iv_length = theirs.iv_length;
    ours.frame_length = theirs.frame_length;
    ours.form = form(theirs.form);
    ours
}

pub fn their_numbers(ours: Numbers) -> reference::Numbers {
    reference::Numbers {
        version: ours.version,
        message_type: ours.message_type,
        suite: ours.suite,
        content_type: ours.content_type,
        iv_length: ours.header_iv_length,
        frame_length: ours.frame_length,
        form: match ours.form {
            Form::Today => TODAY,
            Form::Old => OLD,
        },
    }
}

/// Number and position are both kept.
pub fn refused(refusal: reference::Refusal) -> Refusal {
    Refusal::from_number(refusal.number, refusal.position)
}

pub fn place(place: reference::Place) -> Place {
    Place {
        start: place.start,
        len: place.len,
    }
}

pub fn section(count: u32, tail: u64) -> Section {
    Section {
        count: count as usize,
        tail,
    }
}

pub fn auth(record: reference::AuthRecord) -> AuthRecord {
    AuthRecord {
        iv: record.iv,
        tag: record.tag,
        tail: record.tail,
    }
}

pub fn body(body: reference::Body) -> Body {
    Body {
        numbers: numbers(&body.numbers()),
        message_id: place(body.id),
        pair_count: body.pairs as usize,
        key_count: body.keys as usize,
        suite_data: place(body.suite_data),
        context_start: body.id.end(),
        tail: body.tail,
    }
}
