//! The sections alone, finding, copying, what is only authenticated, and the
//! authentication record.

use super::every_pair::{read, record, Listed, Names};
use super::sections::{self, key_table, pair_table, too_large};
use bafirolen::Mode;
use compare_header::numbers::answered;
use compare_header::{reads, writes, Coverage};
use generator::faults::{ReadDraft, RecordDraft, REQUIRED_TEXT};

/// Read a context section.
fn context(mode: Mode) -> Listed<ReadDraft> {
    let mut list = vec![too_large()];
    list.extend(sections::context(mode));
    list.push(pair_table());
    let operation = match mode {
        Mode::Tolerant => "read section tolerant",
        Mode::Strict => "read section strict",
    };
    Listed {
        operation,
        version: None,
        sound: ReadDraft::context(),
        list,
    }
}

/// Read a key section.
fn keys() -> Listed<ReadDraft> {
    let mut list = vec![too_large()];
    list.extend(sections::keys());
    list.push(key_table());
    Listed {
        operation: "read keys",
        version: None,
        sound: ReadDraft::keys(),
        list,
    }
}

/// Find a value; read tolerantly.
fn find() -> Listed<ReadDraft> {
    let mut list = vec![too_large()];
    list.extend(sections::context(Mode::Tolerant));
    list.push(read("29 key", |d| d.asked = b"lint".to_vec()));
    Listed {
        operation: "find",
        version: None,
        sound: ReadDraft::context(),
        list,
    }
}

/// Copy a value: what finding it refuses, then the output.
fn copy() -> Listed<ReadDraft> {
    let mut listed = find();
    listed.operation = "copy";
    listed.list.push(read("28 output", |d| d.room -= 1));
    listed
}

/// Write what is only authenticated: what reading the section tolerantly
/// refuses, then the required table, then the output.
fn only_authenticated() -> Listed<ReadDraft> {
    let mut list = vec![too_large()];
    list.extend(sections::context(Mode::Tolerant));
    list.extend([
        read("31 required in twos", |d| d.required.push(0)),
        read("31 required place", |d| d.required_outside()),
        read("28 output", |d| d.room -= 1),
    ]);
    Listed {
        operation: "write only authenticated",
        version: None,
        sound: ReadDraft::only_authenticated(),
        list,
    }
}

/// Read an authentication record of a suite of a version.
fn auth(version: u32) -> Listed<RecordDraft> {
    let mut list = vec![
        record("1 start", |d| d.start = 1 << 32),
        record("6 suite", |d| d.suite ^= 1),
    ];
    if version == 1 {
        list.push(record("2 IV", |d| d.cut(0)));
        list.push(record("2 tag", |d| d.cut(1)));
    } else {
        list.push(record("2 tag", |d| d.cut(0)));
    }
    Listed {
        operation: "read auth",
        version: Some(version),
        sound: RecordDraft::new(version),
        list,
    }
}

pub fn lists() -> Vec<Names> {
    let mut lists: Vec<Names> = [
        context(Mode::Tolerant),
        context(Mode::Strict),
        keys(),
        find(),
        copy(),
        only_authenticated(),
    ]
    .map(|listed| listed.names())
    .into();
    lists.extend([1, 2].map(|version| auth(version).names()));
    lists
}

#[test]
fn context_sections() {
    let mut answers = Coverage::default();
    for mode in [Mode::Tolerant, Mode::Strict] {
        context(mode).every_pair(&mut answers, |d| {
            let table = vec![7; d.pair_numbers];
            answered(&reads::read_aad_section(&d.message(), d.start, mode, &table).0)
        });
    }
    answers.assert_complete(["read section tolerant", "read section strict"]);
}

#[test]
fn key_sections() {
    let mut answers = Coverage::default();
    keys().every_pair(&mut answers, |d| {
        let (message, table) = (d.message(), vec![7; d.key_numbers]);
        answered(&reads::read_encrypted_data_keys_section(&message, d.start, d.max, &table).0)
    });
    answers.assert_complete(["read keys"]);
}

#[test]
fn values() {
    let mut answers = Coverage::default();
    find().every_pair(&mut answers, |d| {
        answered(&reads::find_value(&d.message(), d.start, &d.asked))
    });
    answers.assert_complete(["find"]);
    copy().every_pair(&mut answers, |d| {
        let out = vec![0xEE; d.room];
        answered(&reads::copy_value(&d.message(), d.start, &d.asked, &out).0)
    });
    answers.assert_answered(["find", "copy"]);
}

#[test]
fn only_authenticated_pairs() {
    let mut answers = Coverage::default();
    only_authenticated().every_pair(&mut answers, |d| {
        let (message, out) = (d.message(), vec![0xEE; d.room]);
        let (start, required) = (d.start, &d.required);
        let text = REQUIRED_TEXT;
        answered(&writes::write_only_authenticated(&message, start, text, required, &out).0)
    });
    answers.assert_complete(["write only authenticated"]);
}

#[test]
fn authentication_records() {
    let mut answers = Coverage::default();
    for version in [1, 2] {
        auth(version).every_pair(&mut answers, |d| {
            answered(&reads::read_header_auth_tag(&d.message(), d.start, d.suite))
        });
    }
    answers.assert_complete(["read auth"]);
}
