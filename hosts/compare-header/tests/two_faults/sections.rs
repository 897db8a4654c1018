//! The tests of a context section and of a key section as they are read: the
//! part of the lists that the sections alone and bodies share.

use super::every_pair::{read, Fault};
use bafirolen::Mode;
use generator::faults::{Area, ReadDraft};

pub type Faults = Vec<Fault<ReadDraft>>;

/// Read a context section, without 1 and 22. What is inside of it is there as
/// soon as it is there whole, so no part of it is short.
pub fn context(mode: Mode) -> Faults {
    let mut list = vec![
        read("2 section length", |d| d.cut(Area::Context, 0)),
        read("2 whole section", |d| d.cut(Area::Context, 1)),
        read("32 pair count", |d| d.end_in_count()),
        read("8 count", |d| d.section(2, 1)),
    ];
    if mode == Mode::Strict {
        list.push(read("21 old form", |d| d.old_form()));
    }
    list.push(read("9 no pairs", |d| d.pair_count = Some(0)));
    list.extend(pair(0));
    list.extend(pair(1));
    list.push(read("14 end", |d| d.section_too_long()));
    list
}

/// The tests of one pair. The first has no earlier key, so never 12.
fn pair(at: usize) -> Faults {
    let name = |what: &str| what.replace('#', &(at + 1).to_string());
    let mut list = vec![
        read(&name("32 key # length"), move |d| d.end_in_pair(at, 0)),
        read(&name("32 key #"), move |d| d.end_in_pair(at, 1)),
        read(&name("10 key #"), move |d| d.bad_key(at)),
        read(&name("32 value # length"), move |d| d.end_in_pair(at, 2)),
        read(&name("32 value #"), move |d| d.end_in_pair(at, 3)),
        read(&name("11 value #"), move |d| d.fields.pairs[at].1[0] = 0xFF),
    ];
    if at > 0 {
        list.push(read(&name("12 key #"), move |d| d.repeat_key(at)));
    }
    list
}

/// Read a key section, without 1 and 23.
pub fn keys() -> Faults {
    let mut list = vec![
        read("2 key count", |d| d.cut(Area::Keys, 0)),
        read("38 no key", |d| d.no_key()),
        read("15 maximum", |d| d.max = Some(1)),
    ];
    list.extend(key(0));
    list.extend(key(1));
    list
}

fn key(at: usize) -> Faults {
    let name = |what: &str| what.replace('#', &(at + 1).to_string());
    vec![
        read(&name("2 provider # length"), move |d| d.cut_key(at, 0)),
        read(&name("2 provider #"), move |d| d.cut_key(at, 1)),
        read(&name("16 provider #"), move |d| {
            d.fields.keys[at][0][0] = 0xFF
        }),
        read(&name("2 info # length"), move |d| d.cut_key(at, 2)),
        read(&name("2 info #"), move |d| d.cut_key(at, 3)),
        read(&name("2 ciphertext # length"), move |d| d.cut_key(at, 4)),
        read(&name("2 ciphertext #"), move |d| d.cut_key(at, 5)),
    ]
}

/// Refusal 1, which every reader tests first.
pub fn too_large() -> Fault<ReadDraft> {
    read("1 start", |d| d.start = 1 << 32)
}

pub fn pair_table() -> Fault<ReadDraft> {
    read("22 pair table", |d| d.pair_numbers -= 1)
}

pub fn key_table() -> Fault<ReadDraft> {
    read("23 key table", |d| d.key_numbers -= 1)
}
