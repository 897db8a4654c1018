//! Reading a body: either version, and one only; tolerant and strict.

use super::every_pair::{number_of, read, Fault, Listed, Names};
use super::sections::{self, key_table, pair_table, too_large, Faults};
use bafirolen::{Mode, Which};
use compare_header::numbers::answered;
use compare_header::{reads, request, Coverage, BODY_READERS};
use generator::faults::{Area, ReadDraft};

/// A reader and the version of what it is given.
pub type Reader = (&'static str, Which, Mode, u32);

pub const READERS: [Reader; 8] = [
    ("read body tolerant", Which::Either, Mode::Tolerant, 1),
    ("read body tolerant", Which::Either, Mode::Tolerant, 2),
    ("read body strict", Which::Either, Mode::Strict, 1),
    ("read body strict", Which::Either, Mode::Strict, 2),
    ("read body v1 tolerant", Which::V1Only, Mode::Tolerant, 1),
    ("read body v1 strict", Which::V1Only, Mode::Strict, 1),
    ("read body v2 tolerant", Which::V2Only, Mode::Tolerant, 2),
    ("read body v2 strict", Which::V2Only, Mode::Strict, 2),
];

/// What stands before the context section.
fn front(which: Which, version: u32) -> Faults {
    let mut list = vec![
        too_large(),
        read("2 version", |d| d.cut(Area::Front, 0)),
        read("3 version", |d| d.version_byte = Some(3)),
    ];
    if which != Which::Either {
        list.push(read("4 other version", |d| {
            d.version_byte = Some(3 - d.fields.version as u8)
        }));
    }
    if version == 1 {
        list.push(read("2 type", |d| d.cut(Area::Front, 1)));
        list.push(read("5 type", |d| d.fields.message_type = 0x81));
    }
    list.extend([
        read("2 suite", move |d| {
            d.cut(Area::Front, if version == 1 { 2 } else { 1 })
        }),
        read("6 suite", |d| d.fields.suite ^= 1),
        read("7 suite", move |d| {
            d.fields.suite = if version == 1 { 0x0478 } else { 0x0378 }
        }),
        read("2 ID", move |d| {
            d.cut(Area::Front, if version == 1 { 3 } else { 2 })
        }),
    ]);
    list
}

/// What stands behind the key section.
fn back(which: Which, version: u32) -> Faults {
    let mut list = vec![
        read("2 content type", |d| d.cut(Area::Back, 0)),
        read("17 content type", |d| d.fields.content_type = 3),
    ];
    if version == 1 {
        list.extend([
            read("2 reserved", |d| d.cut(Area::Back, 1)),
            read("18 reserved", |d| d.reserved[3] = 1),
            read("2 IV length", |d| d.cut(Area::Back, 2)),
            read("19 IV length", |d| d.fields.iv_length = 13),
            read("2 frame length", |d| d.cut(Area::Back, 3)),
        ]);
    } else {
        list.push(read("2 frame length", |d| d.cut(Area::Back, 1)));
        list.push(read("2 suite data", |d| d.cut(Area::Back, 2)));
    }
    if which == Which::Either {
        list.extend(frame_length());
    }
    list
}

/// A frame length that the content type doesn't have.
pub fn frame_length() -> [Fault<ReadDraft>; 2] {
    [
        read("20 framed", |d| d.content(2, 0)),
        read("20 non-framed", |d| d.content(1, 1)),
    ]
}

pub fn body((operation, which, mode, version): Reader) -> Listed<ReadDraft> {
    let mut list = front(which, version);
    list.extend(sections::context(mode));
    list.extend(sections::keys());
    list.extend(back(which, version));
    list.push(pair_table());
    list.push(key_table());
    Listed {
        operation,
        version: Some(version),
        sound: ReadDraft::body(version),
        list,
    }
}

pub fn lists() -> Vec<Names> {
    READERS.map(|reader| body(reader).names()).into()
}

#[test]
fn bodies() {
    let mut answers = Coverage::default();
    for reader in READERS {
        let (_, which, mode, _) = reader;
        body(reader).every_pair(&mut answers, |d| {
            let asked = request(which, mode, d.max);
            let (pairs, keys) = (vec![7; d.pair_numbers], vec![7; d.key_numbers]);
            answered(&reads::read_header_body(&d.message(), d.start, asked, &pairs, &keys).0)
        });
    }
    answers.assert_complete(BODY_READERS);
}

/// A host is told what the tolerant reader of either version answers, with no
/// maximum and tables that hold all of these.
#[test]
fn what_a_host_is_told() {
    let mut answers = Coverage::default();
    for reader in &READERS[..2] {
        let mut listed = body(*reader);
        listed.operation = "what a host is told";
        let lent = |name: &str| [15, 22, 23].contains(&number_of(name));
        listed.list.retain(|fault| !lent(&fault.name));
        listed.every_pair(&mut answers, |d| {
            match reads::host_answer(&d.message(), d.start) {
                (0, _) => (0, 0),
                refused => refused,
            }
        });
    }
    answers.assert_answered(["what a host is told"]);
}
