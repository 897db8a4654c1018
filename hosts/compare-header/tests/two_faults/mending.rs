//! Drafts that are mended: what the tolerant reader of either version refuses
//! without tables and a maximum, then what is asked for or added.

use super::bodies::{self, Reader, READERS};
use super::every_pair::{mend, number_of, within, Fault, Listed, Names};
use compare_header::both::Both;
use compare_header::Coverage;
use generator::faults::MendDraft;
use generator::rows::{Mend, Refused, Written};

/// What reading a draft refuses. It is read from the buffer's first byte, so
/// that the buffer alone can be too long.
fn read(reader: Reader) -> Vec<Fault<MendDraft>> {
    let mut list = vec![mend("1 buffer", |d| d.too_long = true)];
    let without = |fault: &Fault<_>| ![1, 15, 22, 23].contains(&number_of(&fault.name));
    let body = bodies::body(reader).list.into_iter();
    let drafted = |fault| within(fault, |d: &mut MendDraft| &mut d.read);
    list.extend(body.filter(without).map(drafted));
    list
}

fn listed(
    operation: &'static str,
    behind: fn() -> Vec<Fault<MendDraft>>,
) -> impl Iterator<Item = Listed<MendDraft>> {
    // The first two are tolerant, of either version, and given one of each.
    READERS.into_iter().take(2).map(move |reader| {
        let (_, _, _, version) = reader;
        let mut list = read(reader);
        list.extend(behind());
        Listed {
            operation,
            version: Some(version),
            sound: MendDraft::body(version),
            list,
        }
    })
}

fn drops() -> impl Iterator<Item = Listed<MendDraft>> {
    listed("drop keys", || {
        vec![mend("40 every key", |d| d.every_key())]
    })
}

fn adds() -> impl Iterator<Item = Listed<MendDraft>> {
    listed("add key", || {
        vec![
            mend("16 added ID", |d| d.bad_id()),
            mend("27 added part", |d| d.part_too_long()),
            mend("27 draft's keys", |d| d.most_keys()),
            mend("28 buffer", |d| d.short = 1),
        ]
    })
}

pub fn lists() -> Vec<Names> {
    drops().chain(adds()).map(|listed| listed.names()).collect()
}

/// Number and position, zeros where there is no refusal.
fn refused(answer: Written) -> Refused {
    answer.err().unwrap_or((0, 0))
}

#[test]
fn dropped() {
    let mut answers = Coverage::default();
    for listed in drops() {
        listed.every_pair(&mut answers, |d| {
            refused(Both.drop_keys(&mut d.buffer(), &d.asked))
        });
    }
    answers.assert_complete(["drop keys"]);
}

#[test]
fn added() {
    let mut answers = Coverage::default();
    for listed in adds() {
        listed.every_pair(&mut answers, |d| {
            let key = d.added.each_ref().map(|part| &part[..]);
            refused(Both.add_key(&mut d.buffer(), key))
        });
    }
    answers.assert_complete(["add key"]);
}
