//! Bodies under a policy, read, measured and written: the lists of those
//! without one, and 39 right behind 7.

use super::every_pair::{read, write, Fault, Listed, Names};
use super::{bodies, writes};
use bafirolen::{Mode, Which};
use compare_header::crossing::Asked;
use compare_header::numbers::answered;
use compare_header::{under_policy, Coverage, BODY_READERS_UNDER_POLICY};
use generator::faults::{ReadDraft, WriteDraft};
use generator::rows::Lent;

/// In the order of `bodies::READERS`.
const READERS: [&str; 8] = [
    "read body under policy tolerant",
    "read body under policy tolerant",
    "read body under policy strict",
    "read body under policy strict",
    "read body under policy v1 tolerant",
    "read body under policy v1 strict",
    "read body under policy v2 tolerant",
    "read body under policy v2 strict",
];

fn behind_the_suite<D>(list: &mut Vec<Fault<D>>, fault: Fault<D>) {
    let suite = list.iter().position(|fault| fault.name == "7 suite");
    list.insert(suite.expect("the suite's version is tested") + 1, fault);
}

/// Version 1 is forbidden by the policy that requires version 2 of readers;
/// version 2 by none.
fn body(operation: &'static str, reader: bodies::Reader) -> Listed<ReadDraft> {
    let mut listed = bodies::body(reader);
    listed.operation = operation;
    match reader.3 {
        1 => {
            listed.sound.policy = 2;
            let forbid = read("39 policy", |d| d.policy = 3);
            behind_the_suite(&mut listed.list, forbid);
        }
        _ => listed.sound.policy = 3,
    }
    listed
}

/// Each version is forbidden by a policy that requires the other of writers.
fn draft(
    operation: &'static str,
    version: u32,
    without: fn(u32) -> Listed<WriteDraft>,
) -> Listed<WriteDraft> {
    let mut listed = without(version);
    listed.operation = operation;
    let (sound, forbidding) = if version == 1 { (1, 2) } else { (3, 1) };
    listed.sound.policy = sound;
    let forbid = write("39 policy", move |d| d.policy = forbidding);
    behind_the_suite(&mut listed.list, forbid);
    listed
}

fn lengths() -> [Listed<WriteDraft>; 2] {
    [1, 2].map(|version| draft("body length under policy", version, writes::length))
}

fn old_lengths() -> [Listed<WriteDraft>; 2] {
    [1, 2].map(|version| draft("old body length under policy", version, writes::old_length))
}

fn written() -> [Listed<WriteDraft>; 2] {
    [1, 2].map(|version| draft("write body under policy", version, writes::body))
}

fn old_written() -> [Listed<WriteDraft>; 2] {
    [1, 2].map(|version| draft("write old body under policy", version, writes::old_body))
}

fn readers() -> impl Iterator<Item = (bodies::Reader, Listed<ReadDraft>)> {
    let named = bodies::READERS.into_iter().zip(READERS);
    named.map(|(reader, operation)| (reader, body(operation, reader)))
}

pub fn lists() -> Vec<Names> {
    let writers = [lengths(), old_lengths(), written(), old_written()];
    let writers = writers.iter().flatten().map(Listed::names);
    readers()
        .map(|(_, listed)| listed.names())
        .chain(writers)
        .collect()
}

fn asked(which: Which, mode: Mode, max: Option<u64>) -> Asked {
    Asked {
        which: match which {
            Which::Either => 0,
            Which::V1Only => 1,
            Which::V2Only => 2,
        },
        mode: u32::from(mode == Mode::Strict),
        has_max: max.is_some().into(),
        max: max.unwrap_or(0),
    }
}

#[test]
fn bodies_under_a_policy() {
    let mut answers = Coverage::default();
    for ((_, which, mode, _), listed) in readers() {
        listed.every_pair(&mut answers, |d| {
            let (pairs, keys) = (vec![7; d.pair_numbers], vec![7; d.key_numbers]);
            let (message, asked) = (d.message(), asked(which, mode, d.max));
            let message = (&message[..], d.start);
            let (record, _) =
                under_policy::read_header_body(d.policy, message, asked, &pairs, &keys);
            (record.number as u32, record.position)
        });
    }
    answers.assert_complete(BODY_READERS_UNDER_POLICY);
}

fn lent(d: &WriteDraft) -> Lent<'_> {
    Lent {
        numbers: d.numbers,
        id: &d.id,
        suite_data: &d.suite_data,
        text: &d.text,
        pairs: &d.pairs,
        keys: &d.keys,
    }
}

fn length_of(d: &WriteDraft) -> (u32, u64) {
    answered(&under_policy::header_body_len(d.policy, lent(d)))
}

fn written_of(d: &WriteDraft) -> (u32, u64) {
    let out = vec![0xEE; d.room];
    answered(&under_policy::write_header_body(d.policy, lent(d), &out).0)
}

#[test]
fn lengths_under_a_policy() {
    let mut answers = Coverage::default();
    for listed in lengths() {
        listed.every_pair(&mut answers, length_of);
    }
    answers.assert_complete(["body length under policy"]);
}

#[test]
fn lengths_of_old_bodies_under_a_policy() {
    let mut answers = Coverage::default();
    for listed in old_lengths() {
        listed.every_pair(&mut answers, length_of);
    }
    answers.assert_answered(["old body length under policy"]);
}

#[test]
fn written_under_a_policy() {
    let mut answers = Coverage::default();
    for listed in written() {
        listed.every_pair(&mut answers, written_of);
    }
    answers.assert_complete(["write body under policy"]);
}

#[test]
fn old_bodies_written_under_a_policy() {
    let mut answers = Coverage::default();
    for listed in old_written() {
        listed.every_pair(&mut answers, written_of);
    }
    answers.assert_answered(["write old body under policy"]);
}
