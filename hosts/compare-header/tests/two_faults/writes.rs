//! Writing: both sections, a body of each version, which is measured before,
//! the authentication record; and the listing.

use super::every_pair::{record, write, Fault, Listed, Names};
use bafirolen::Draft;
use compare_header::numbers::{answered, numbers};
use compare_header::{lengths, writes, Coverage};
use generator::faults::{ReadDraft, RecordDraft, WriteDraft};

type Faults = Vec<Fault<WriteDraft>>;

/// Parts of a table are counted from 0: the key and the value of a pair, the
/// three of a key.
fn pairs() -> Faults {
    let mut list = vec![
        write("26 pairs in fours", |d| d.pairs.push(0)),
        write("26 pair place", |d| {
            WriteDraft::outside(&mut d.pairs, 6, &d.text)
        }),
        write("27 pair count", |d| WriteDraft::too_many(&mut d.pairs, 4)),
        write("27 pair part", |d| {
            WriteDraft::long_part(&mut d.pairs, 7, 65_536)
        }),
    ];
    for at in 0..4 {
        list.extend(pair(at));
    }
    // Three pairs of 12 bytes, and one of 8 and this value: 65,534.
    list.push(write("13 pairs", |d| {
        WriteDraft::long_part(&mut d.pairs, 7, 65_490)
    }));
    list
}

/// The tests of one pair. The first has no earlier key, so never 12.
fn pair(at: usize) -> Faults {
    let name = |what: &str| format!("{what} {}", at + 1);
    let mut list = vec![
        write(&name("10 key"), move |d| d.bad_key(at)),
        write(&name("11 value"), move |d| {
            WriteDraft::bad_part(&mut d.pairs, 2 * at + 1)
        }),
    ];
    if at > 0 {
        list.push(write(&name("12 key"), move |d| d.repeat_key(at)));
    }
    list
}

fn keys() -> Faults {
    vec![
        write("26 keys in sixes", |d| d.keys.push(0)),
        write("26 key place", |d| d.key_outside()),
        write("27 key count", |d| WriteDraft::too_many(&mut d.keys, 6)),
        write("27 key part", |d| d.long_key_part()),
        write("38 no key", |d| d.no_key()),
        write("16 provider 1", |d| d.bad_provider(0)),
        write("16 provider 2", |d| d.bad_provider(1)),
    ]
}

fn output() -> Fault<WriteDraft> {
    write("28 output", |d| d.room -= 1)
}

/// Write a context section.
fn context() -> Listed<WriteDraft> {
    let mut list = pairs();
    list.push(output());
    Listed {
        operation: "write section",
        version: None,
        sound: WriteDraft::context(),
        list,
    }
}

/// Write a key section.
fn key_section() -> Listed<WriteDraft> {
    let mut list = keys();
    list.push(output());
    Listed {
        operation: "write keys",
        version: None,
        sound: WriteDraft::keys(),
        list,
    }
}

const VERSION: usize = 0;
const TYPE: usize = 1;
const SUITE: usize = 2;
const CONTENT_TYPE: usize = 3;
const IV_LENGTH: usize = 4;

/// What stands before the pairs of a body.
fn front(version: u32) -> Faults {
    let other_suite = if version == 1 { 0x0478 } else { 0x0378 };
    vec![
        write("3 version", |d| d.numbers[VERSION] = 3),
        write("5 type", |d| d.numbers[TYPE] ^= 1),
        write("6 suite", |d| d.numbers[SUITE] ^= 1),
        write("7 suite", move |d| d.numbers[SUITE] = other_suite),
        write("24 ID", |d| d.id.push(0)),
    ]
}

/// What stands behind its keys.
fn back() -> Faults {
    vec![
        write("17 content type", |d| d.numbers[CONTENT_TYPE] = 3),
        write("19 IV length", |d| d.numbers[IV_LENGTH] += 1),
        write("25 suite data", |d| d.suite_data.push(0)),
        write("20 framed", |d| d.content(2, 0)),
        write("20 non-framed", |d| d.content(1, 1)),
    ]
}

/// The length of a body of a version, before it is written.
pub fn length(version: u32) -> Listed<WriteDraft> {
    let mut list = front(version);
    list.extend(pairs());
    list.push(write("33 form", |d| d.mark_old()));
    list.extend(keys());
    list.extend(back());
    Listed {
        operation: "body length",
        version: Some(version),
        sound: WriteDraft::body(version),
        list,
    }
}

/// The same in the old form, which has no pair to be refused.
pub fn old_length(version: u32) -> Listed<WriteDraft> {
    let mut list = front(version);
    list.extend(keys());
    list.extend(back());
    Listed {
        operation: "old body length",
        version: Some(version),
        sound: WriteDraft::old_body(version),
        list,
    }
}

/// Write a body of a version: what its length is refused by, then the output.
pub fn body(version: u32) -> Listed<WriteDraft> {
    let mut listed = length(version);
    listed.operation = "write body";
    listed.list.push(output());
    listed
}

/// Write a body of a version in the old form.
pub fn old_body(version: u32) -> Listed<WriteDraft> {
    let mut listed = old_length(version);
    listed.operation = "write old body";
    listed.list.push(output());
    listed
}

/// Write an authentication record of a suite of a version.
fn auth(version: u32) -> Listed<RecordDraft> {
    Listed {
        operation: "write auth",
        version: Some(version),
        sound: RecordDraft::new(version),
        list: vec![
            record("6 suite", |d| d.suite ^= 1),
            record("19 IV", |d| d.iv.push(0)),
            record("30 tag", |d| d.tag.push(0)),
            record("28 output", |d| d.room -= 1),
        ],
    }
}

pub fn lists() -> Vec<Names> {
    let mut lists = vec![context().names(), key_section().names()];
    lists.extend([1, 2].map(|version| length(version).names()));
    lists.extend([1, 2].map(|version| old_length(version).names()));
    lists.extend([1, 2].map(|version| body(version).names()));
    lists.extend([1, 2].map(|version| old_body(version).names()));
    lists.extend([1, 2].map(|version| auth(version).names()));
    lists
}

#[test]
fn sections() {
    let mut answers = Coverage::default();
    context().every_pair(&mut answers, |d| {
        answered(&writes::write_aad_section(&d.text, &d.pairs, &vec![0xEE; d.room]).0)
    });
    key_section().every_pair(&mut answers, |d| {
        let out = vec![0xEE; d.room];
        answered(&writes::write_encrypted_data_keys_section(&d.text, &d.keys, &out).0)
    });
    answers.assert_complete(["write section", "write keys"]);
}

fn lent(d: &WriteDraft) -> Draft<'_> {
    Draft::new(numbers(&reference::Numbers::from(d.numbers)), &d.id)
        .with_suite_data(&d.suite_data)
        .with_tables(&d.text, &d.pairs, &d.keys)
}

fn body_answer(d: &WriteDraft) -> (u32, u64) {
    answered(&writes::write_header_body(lent(d), &vec![0xEE; d.room]).0)
}

#[test]
fn lengths_of_bodies() {
    let mut answers = Coverage::default();
    for version in [1, 2] {
        length(version).every_pair(&mut answers, |d| {
            answered(&lengths::header_body_len(&lent(d)))
        });
    }
    answers.assert_complete(["body length"]);
}

#[test]
fn lengths_of_old_bodies() {
    let mut answers = Coverage::default();
    for version in [1, 2] {
        old_length(version).every_pair(&mut answers, |d| {
            answered(&lengths::header_body_len(&lent(d)))
        });
    }
    answers.assert_answered(["old body length"]);
}

#[test]
fn written_bodies() {
    let mut answers = Coverage::default();
    for version in [1, 2] {
        body(version).every_pair(&mut answers, body_answer);
    }
    answers.assert_complete(["write body"]);
}

#[test]
fn written_old_bodies() {
    let mut answers = Coverage::default();
    for version in [1, 2] {
        old_body(version).every_pair(&mut answers, body_answer);
    }
    answers.assert_answered(["write old body"]);
}

#[test]
fn written_records() {
    let mut answers = Coverage::default();
    for version in [1, 2] {
        auth(version).every_pair(&mut answers, |d| {
            let out = vec![0xEE; d.room];
            answered(&writes::write_header_auth_tag(d.suite, &d.iv, &d.tag, &out).0)
        });
    }
    answers.assert_complete(["write auth"]);
}

/// List a header: 28 is all that can be refused, whatever the message.
#[test]
fn listings() {
    let mut answers = Coverage::default();
    let mut cut = ReadDraft::body(1);
    cut.cut_key(1, 5);
    for draft in [ReadDraft::body(1), ReadDraft::body(2), cut] {
        // The program reads at 0.
        let message = &draft.message()[draft.start as usize..];
        let length = reference::listing(message).len();
        for (room, wanted) in [(length, (0, 0)), (length - 1, (28, 0))] {
            let (answer, _) = writes::write_listing(message, &vec![0xEE; room]);
            assert_eq!(answered(&answer), wanted, "{room}");
            answers.count("write listing", wanted.0);
        }
    }
    answers.assert_complete(["write listing"]);
}
