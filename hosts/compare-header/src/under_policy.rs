//! One request under a policy, handed to both.

use crate::crossing::{self, Asked};
use crate::guarded::Guarded;
use crate::kept::Kept;
use crate::numbers::Answer;
use crate::reads::{few, shown_at, Tables};
use crate::records::{self, mode_of, which_of};
use crate::writes::{about_length, both};
use bafirolen_sys::BafirolenBody;
use generator::rows::Lent;
use reference::{Draft, Numbers, Policy, Request};

/// A body: its record, and both tables afterwards.
pub fn read_header_body(
    policy: u32,
    (message, start): (&[u8], u64),
    asked: Asked,
    pairs: &[u32],
    keys: &[u32],
) -> (BafirolenBody, Tables) {
    let (mut our_pairs, mut our_keys) = (Guarded::new(pairs), Guarded::new(keys));
    let kept = Kept::new([message]);
    let lent = (our_pairs.lend(), our_keys.lend());
    let record = crossing::read(message, start, asked, Some(policy), lent);
    kept.assert_unchanged("read a body under a policy");
    let request = Request {
        which: which_of(asked.which),
        mode: mode_of(asked.mode),
        max: (asked.has_max != 0).then_some(asked.max),
        policy: Policy::from(policy),
    };
    let mut tables = Tables {
        pairs: pairs.to_vec(),
        keys: keys.to_vec(),
    };
    let (their_pairs, their_keys) = (&mut tables.pairs, &mut tables.keys);
    let wanted =
        reference::read_header_body_under_policy(message, start, request, their_pairs, their_keys);
    let wanted = records::body(wanted);
    assert!(
        record == wanted,
        "policy {policy}, {asked:?}: {record:?} against {wanted:?}, {}",
        shown_at(message, start)
    );
    our_pairs.assert_holds(&tables.pairs, "pair table");
    our_keys.assert_holds(&tables.keys, "key table");
    (record, tables)
}

fn draft(lent: Lent) -> Draft {
    Draft {
        numbers: Numbers::from(lent.numbers),
        id: lent.id,
        suite_data: lent.suite_data,
        text: lent.text,
        pairs: lent.pairs,
        keys: lent.keys,
    }
}

/// What is lent, with the fronts of what is long, as a failure shows it.
fn shown(policy: u32, lent: Lent) -> String {
    let lent = Lent {
        id: few(lent.id),
        suite_data: few(lent.suite_data),
        text: few(lent.text),
        pairs: few(lent.pairs),
        keys: few(lent.keys),
        ..lent
    };
    format!("policy {policy}, {lent:02X?}")
}

/// The length of a body. Nothing that is lent changes.
pub fn header_body_len(policy: u32, lent: Lent) -> Answer<usize> {
    let bytes = Kept::new([lent.id, lent.suite_data, lent.text]);
    let tables = Kept::new([lent.pairs, lent.keys]);
    let record = crossing::length(lent, Some(policy));
    bytes.assert_unchanged("bytes of a length under a policy");
    tables.assert_unchanged("tables of a length under a policy");
    let wanted = reference::header_body_len_under_policy(policy.into(), &draft(lent));
    let wanted = records::written(wanted);
    assert!(
        record == wanted,
        "{record:?} against {wanted:?}: {}",
        shown(policy, lent)
    );
    records::answer(record)
}

/// The length is asked first, and then the body is also written into outputs
/// about that length.
pub fn write_header_body(policy: u32, lent: Lent, out: &[u8]) -> (Answer<usize>, Vec<u8>) {
    let length = header_body_len(policy, lent);
    about_length([lent.pairs, lent.keys], length, out, |out| {
        write_body(policy, lent, out)
    })
}

fn write_body(policy: u32, lent: Lent, out: &[u8]) -> (Answer<usize>, Vec<u8>) {
    both(
        out,
        (
            [lent.id, lent.suite_data, lent.text],
            [lent.pairs, lent.keys],
        ),
        || shown(policy, lent),
        |out| records::answer(crossing::write(lent, Some(policy), out)),
        |out| reference::write_header_body_under_policy(policy.into(), &draft(lent), out),
    )
}
