//! The reading operations as requests that are asked of any front of a message,
//! with equal start, tables and all else that is lent.

use super::promised::Run;
use super::rounds;
use crate::crossing;
use crate::numbers::{self, answered, Answer};
use crate::reads::{self, Tables};
use crate::{reissues, under_policy, writes};
use bafirolen::{Mode, Place, Request};
use bafirolen_sys::BafirolenBody;
use generator::rows::Added;
use std::fmt::Debug;

/// A request but for the message and the start.
pub trait Asked: Debug {
    /// The record, and the tables or the output afterwards.
    type Told: PartialEq + Debug;

    /// The answer to a front of the message, of ours and of the other's.
    fn ask(&self, front: &[u8], start: u64) -> Run<Self::Told>;

    /// The most rounds that fetching the message takes.
    fn most_rounds(&self, message: &[u8], start: u64) -> u64;
}

fn run<T, Told>(answer: &Answer<T>, tail: impl Fn(&T) -> u64, told: Told) -> Run<Told> {
    let (number, position) = answered(answer);
    Run {
        number,
        position,
        tail: answer.as_ref().ok().map(tail),
        told,
    }
}

/// Where a context section ends by the length that it has stored.
fn section_end(message: &[u8], start: u64) -> u64 {
    let (length, body) = reference::read_u16(message, start).expect("an accepted section");
    body + u64::from(length)
}

#[derive(Debug)]
pub struct Context<'a> {
    pub mode: Mode,
    pub table: &'a [u32],
}

impl Asked for Context<'_> {
    type Told = (Answer<numbers::Section>, Vec<u32>);

    fn ask(&self, front: &[u8], start: u64) -> Run<Self::Told> {
        let (answer, table) = reads::read_aad_section(front, start, self.mode, self.table);
        run(&answer, |read| read.tail, (answer, table))
    }

    fn most_rounds(&self, _: &[u8], _: u64) -> u64 {
        rounds::OF_CONTEXT
    }
}

#[derive(Debug)]
pub struct Find<'a> {
    pub key: &'a [u8],
}

impl Asked for Find<'_> {
    type Told = Answer<Place>;

    fn ask(&self, front: &[u8], start: u64) -> Run<Self::Told> {
        let answer = reads::find_value(front, start, self.key);
        run(&answer, |_| section_end(front, start), answer)
    }

    fn most_rounds(&self, _: &[u8], _: u64) -> u64 {
        rounds::OF_CONTEXT
    }
}

/// Where the text is the message itself, it is still lent whole each time: the
/// request has to be equal.
#[derive(Debug)]
pub struct OnlyAuthenticated<'a> {
    pub text: &'a [u8],
    pub required: &'a [u32],
    pub out: &'a [u8],
}

impl Asked for OnlyAuthenticated<'_> {
    type Told = (Answer<usize>, Vec<u8>);

    fn ask(&self, front: &[u8], start: u64) -> Run<Self::Told> {
        let (text, required) = (self.text, self.required);
        let (answer, out) =
            writes::write_only_authenticated(front, start, text, required, self.out);
        run(&answer, |_| section_end(front, start), (answer, out))
    }

    fn most_rounds(&self, _: &[u8], _: u64) -> u64 {
        rounds::OF_CONTEXT
    }
}

#[derive(Debug)]
pub struct Keys<'a> {
    pub max: Option<u64>,
    pub table: &'a [u32],
}

impl Asked for Keys<'_> {
    type Told = (Answer<numbers::Section>, Vec<u32>);

    fn ask(&self, front: &[u8], start: u64) -> Run<Self::Told> {
        let (answer, table) =
            reads::read_encrypted_data_keys_section(front, start, self.max, self.table);
        run(&answer, |read| read.tail, (answer, table))
    }

    fn most_rounds(&self, message: &[u8], start: u64) -> u64 {
        rounds::of_keys(message, start)
    }
}

#[derive(Debug)]
pub struct Body<'a> {
    pub request: Request,
    pub pairs: &'a [u32],
    pub keys: &'a [u32],
}

impl Asked for Body<'_> {
    type Told = (Answer<numbers::Body>, Tables);

    fn ask(&self, front: &[u8], start: u64) -> Run<Self::Told> {
        let (answer, tables) =
            reads::read_header_body(front, start, self.request, self.pairs, self.keys);
        run(&answer, |read| read.tail, (answer, tables))
    }

    fn most_rounds(&self, message: &[u8], start: u64) -> u64 {
        rounds::of_body(message, start)
    }
}

/// Under the policy of a number, the record as it crosses.
#[derive(Debug)]
pub struct BodyUnderPolicy<'a> {
    pub policy: u32,
    pub asked: crossing::Asked,
    pub pairs: &'a [u32],
    pub keys: &'a [u32],
}

impl Asked for BodyUnderPolicy<'_> {
    type Told = (BafirolenBody, Tables);

    fn ask(&self, front: &[u8], start: u64) -> Run<Self::Told> {
        let message = (front, start);
        let (policy, asked) = (self.policy, self.asked);
        let told = under_policy::read_header_body(policy, message, asked, self.pairs, self.keys);
        Run {
            number: told.0.number as u32,
            position: told.0.position,
            tail: (told.0.number == 0).then_some(told.0.tail),
            told,
        }
    }

    fn most_rounds(&self, message: &[u8], start: u64) -> u64 {
        rounds::of_body(message, start)
    }
}

/// A draft that is reissued, and measured before.
#[derive(Debug)]
pub struct Reissued<'a> {
    pub added: Added<'a>,
    pub out: &'a [u8],
}

impl Asked for Reissued<'_> {
    type Told = ([Answer<usize>; 2], Vec<u8>);

    fn ask(&self, front: &[u8], start: u64) -> Run<Self::Told> {
        let length = reissues::reissued_len(front, start, self.added);
        let (answer, out) = reissues::reissue_alone(front, start, self.added, self.out);
        // 42 bytes less than the body, or 40 where the context has its old form.
        let tail = |length: &usize| match reference::read_u32(front, start + 20) {
            Ok((0x0002_0000, _)) => start + *length as u64 - 40,
            _ => start + *length as u64 - 42,
        };
        run(&answer, tail, ([length, answer], out))
    }

    fn most_rounds(&self, message: &[u8], start: u64) -> u64 {
        rounds::of_body(message, start)
    }
}

/// The two calls of a host.
#[derive(Debug)]
pub struct Host;

impl Asked for Host {
    type Told = (u32, u64);

    fn ask(&self, front: &[u8], start: u64) -> Run<Self::Told> {
        let told @ (number, position) = reads::host_answer(front, start);
        Run {
            number,
            position,
            tail: (number == 0).then_some(position),
            told,
        }
    }

    fn most_rounds(&self, message: &[u8], start: u64) -> u64 {
        rounds::of_body(message, start)
    }
}

#[derive(Debug)]
pub struct Record {
    pub suite: u32,
}

impl Asked for Record {
    type Told = Answer<numbers::AuthRecord>;

    fn ask(&self, front: &[u8], start: u64) -> Run<Self::Told> {
        let answer = reads::read_header_auth_tag(front, start, self.suite);
        run(&answer, |read| read.tail, answer)
    }

    fn most_rounds(&self, _: &[u8], _: u64) -> u64 {
        rounds::of_record(self.suite)
    }
}

#[derive(Debug)]
pub struct Frames<'a> {
    pub frame_length: u32,
    pub table: &'a [u32],
}

impl Asked for Frames<'_> {
    type Told = (Answer<numbers::Section>, Vec<u32>);

    fn ask(&self, front: &[u8], start: u64) -> Run<Self::Told> {
        let (answer, table) = reads::read_frames(front, start, self.frame_length, self.table);
        run(&answer, |read| read.tail, (answer, table))
    }

    fn most_rounds(&self, message: &[u8], start: u64) -> u64 {
        rounds::of_frames(message, start, self.frame_length)
    }
}
