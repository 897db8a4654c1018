//! Drafts that are reissued, and measured before: what the tolerant reader of
//! version 1 refuses without tables and a maximum, then 20, then what is added.

use super::bodies::{self, READERS};
use super::every_pair::{number_of, reissue, within, Fault, Listed, Names};
use compare_header::numbers::answered;
use compare_header::{reissues, Coverage};
use generator::faults::{ReadDraft, ReissueDraft};

/// What is refused of the draft.
fn read() -> Vec<Fault<ReadDraft>> {
    let reader = READERS.into_iter().find(|r| r.0 == "read body v1 tolerant");
    let mut list = bodies::body(reader.expect("it is one of the readers")).list;
    list.retain(|fault| ![15, 22, 23].contains(&number_of(&fault.name)));
    list.extend(bodies::frame_length());
    list
}

/// What is refused of a context that isn't stored as an empty one.
fn of_pairs(name: &str) -> bool {
    let in_a_pair = name.starts_with("32 key ") || name.starts_with("32 value ");
    in_a_pair || [9, 10, 11, 12, 14].contains(&number_of(name))
}

fn length(operation: &'static str, sound: ReissueDraft) -> Listed<ReissueDraft> {
    let drafted = |fault| within(fault, |d: &mut ReissueDraft| &mut d.read);
    let mut list: Vec<_> = read().into_iter().map(drafted).collect();
    list.extend([
        reissue("6 added suite", |d| d.suite ^= 1),
        reissue("7 added suite", |d| d.suite = 0x0378),
        reissue("24 added ID", |d| d.id.push(0)),
        reissue("25 added suite data", |d| d.suite_data.push(0)),
    ]);
    Listed {
        operation,
        version: None,
        sound,
        list,
    }
}

fn body(operation: &'static str, sound: ReissueDraft) -> Listed<ReissueDraft> {
    let mut listed = length(operation, sound);
    listed.list.push(reissue("28 output", |d| d.room -= 1));
    listed
}

/// The same in the old form, which has no pair to be refused.
fn old(mut listed: Listed<ReissueDraft>) -> Listed<ReissueDraft> {
    listed.list.retain(|fault| !of_pairs(&fault.name));
    listed
}

fn measured() -> [Listed<ReissueDraft>; 2] {
    [
        length("reissued length", ReissueDraft::sound()),
        old(length("reissued old length", ReissueDraft::old())),
    ]
}

fn written() -> [Listed<ReissueDraft>; 2] {
    [
        body("reissue body", ReissueDraft::sound()),
        old(body("reissue old body", ReissueDraft::old())),
    ]
}

pub fn lists() -> Vec<Names> {
    let all = measured().into_iter().chain(written());
    all.map(|listed| listed.names()).collect()
}

/// Of the list and of that of the old form.
fn hold(lists: [Listed<ReissueDraft>; 2], ask: impl Fn(&ReissueDraft) -> (u32, u64)) {
    let [listed, old] = lists;
    let (mut answers, mut of_old) = (Coverage::default(), Coverage::default());
    listed.every_pair(&mut answers, &ask);
    old.every_pair(&mut of_old, &ask);
    answers.assert_complete([listed.operation]);
    of_old.assert_answered([old.operation]);
}

#[test]
fn lengths() {
    hold(measured(), |d| {
        let (message, start) = (d.read.message(), d.read.start);
        answered(&reissues::reissued_len(&message, start, d.added()))
    });
}

#[test]
fn bodies_reissued() {
    hold(written(), |d| {
        let (message, start, out) = (d.read.message(), d.read.start, vec![0xEE; d.room]);
        answered(&reissues::reissue(&message, start, d.added(), &out).0)
    });
}
