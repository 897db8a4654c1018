//! One request to read, handed to both.

use crate::guarded::Guarded;
use crate::kept::Kept;
use crate::numbers::{self, auth, body, place, refused, section};
use crate::numbers::{Answer, AuthRecord, Body, Ours, Section};
use crate::parts::{frames_are, keys_are, pairs_are};
use bafirolen::{Mode, Place, Refusal, Request};
use reference::refusal::OUTPUT;
use std::fmt::{self, Debug, Formatter};

/// The front of what is lent, as a failure shows it: the whole may be long.
pub(crate) fn few<T>(lent: &[T]) -> &[T] {
    &lent[..lent.len().min(600)]
}

/// A message and a start as a failure shows them.
pub(crate) fn shown_at(message: &[u8], start: u64) -> String {
    let first: Vec<String> = few(message)
        .iter()
        .map(|byte| format!("{byte:02X}"))
        .collect();
    format!(
        "start {start} of {} bytes: {}",
        message.len(),
        first.join(" ")
    )
}

/// A key that was asked for, as a failure shows it.
struct Asked<'a>(&'a [u8]);

impl Debug for Asked<'_> {
    fn fmt(&self, f: &mut Formatter<'_>) -> fmt::Result {
        write!(f, "{} bytes {:02X?}", self.0.len(), few(self.0))
    }
}

fn same<T: PartialEq + Debug>(
    ours: &Answer<T>,
    theirs: &Answer<T>,
    what: impl Debug,
    message: &[u8],
    start: u64,
) {
    assert!(
        ours == theirs,
        "{what:?}: {ours:?} against {theirs:?}, {}",
        shown_at(message, start)
    );
}

/// A context section: the answer, and the table afterwards.
pub fn read_aad_section(
    message: &[u8],
    start: u64,
    mode: Mode,
    table: &[u32],
) -> (Answer<Section>, Vec<u32>) {
    let (mut ours, mut theirs) = (Guarded::new(table), table.to_vec());
    let kept = Kept::new([message]);
    let read = bafirolen::read_aad_section(message, start, mode, ours.lend());
    kept.assert_unchanged("read a context section");
    let answer = read.as_ref().map(Ours::owned).map_err(Refusal::clone);
    let wanted = reference::read_aad_section(message, start, numbers::mode(mode), &mut theirs)
        .map(|read| section(read.pairs, read.tail))
        .map_err(refused);
    same(&answer, &wanted, (mode, table.len()), message, start);
    if let Ok(context) = read {
        let filled = &theirs[..4 * context.pairs().len()];
        assert!(context.pair_table() == filled, "pair table");
        pairs_are(message, context.pairs(), filled);
    }
    ours.assert_holds(&theirs, "pair table");
    (answer, theirs)
}

/// A key section: the answer, and the table afterwards.
pub fn read_encrypted_data_keys_section(
    message: &[u8],
    start: u64,
    max: Option<u64>,
    table: &[u32],
) -> (Answer<Section>, Vec<u32>) {
    let (mut ours, mut theirs) = (Guarded::new(table), table.to_vec());
    let kept = Kept::new([message]);
    let read = bafirolen::read_encrypted_data_keys_section(message, start, max, ours.lend());
    kept.assert_unchanged("read a key section");
    let answer = read.as_ref().map(Ours::owned).map_err(Refusal::clone);
    let wanted = reference::read_encrypted_data_keys_section(message, start, max, &mut theirs)
        .map(|read| section(read.keys, read.tail))
        .map_err(refused);
    same(&answer, &wanted, (max, table.len()), message, start);
    if let Ok(section) = read {
        let filled = &theirs[..6 * section.keys().len()];
        assert!(section.key_table() == filled, "key table");
        keys_are(message, section.keys(), filled);
    }
    ours.assert_holds(&theirs, "key table");
    (answer, theirs)
}

/// Both tables of a body.
#[derive(Debug, PartialEq, Eq)]
pub struct Tables {
    pub pairs: Vec<u32>,
    pub keys: Vec<u32>,
}

/// The parts that an accepted body gives are those at its places, and those
/// of the tables.
fn parts_of(message: &[u8], body: &bafirolen::Body, tables: &Tables) {
    for (part, place) in [
        (body.message_id(), body.message_id_place()),
        (body.suite_data(), body.suite_data_place()),
    ] {
        let wanted = place.within(message).map(<[u8]>::as_ptr_range);
        assert_eq!(Some(part.as_ptr_range()), wanted, "{place:?}");
    }
    let pairs = &tables.pairs[..4 * body.pairs().len()];
    let keys = &tables.keys[..6 * body.keys().len()];
    assert!(body.pair_table() == pairs && body.key_table() == keys);
    pairs_are(message, body.pairs(), pairs);
    keys_are(message, body.keys(), keys);
    draft_of(message, body);
}

/// The draft to write it again lends the message, and all that was read of it.
fn draft_of(message: &[u8], body: &bafirolen::Body) {
    let draft = body.draft();
    assert_eq!(draft.numbers, body.numbers);
    for (lent, part) in [
        (draft.text, message),
        (draft.message_id, body.message_id()),
        (draft.suite_data, body.suite_data()),
    ] {
        assert_eq!(lent.as_ptr_range(), part.as_ptr_range());
    }
    assert!(draft.pairs == body.pair_table() && draft.keys == body.key_table());
}

/// A body: the answer, and both tables afterwards.
pub fn read_header_body(
    message: &[u8],
    start: u64,
    request: Request,
    pairs: &[u32],
    keys: &[u32],
) -> (Answer<Body>, Tables) {
    let (mut our_pairs, mut our_keys) = (Guarded::new(pairs), Guarded::new(keys));
    let mut tables = Tables {
        pairs: pairs.to_vec(),
        keys: keys.to_vec(),
    };
    let kept = Kept::new([message]);
    let read =
        bafirolen::read_header_body(message, start, request, our_pairs.lend(), our_keys.lend());
    kept.assert_unchanged("read a body");
    let answer = read.as_ref().map(Ours::owned).map_err(Refusal::clone);
    let wanted = reference::read_header_body_under_policy(
        message,
        start,
        numbers::request(request),
        &mut tables.pairs,
        &mut tables.keys,
    )
    .map(body)
    .map_err(refused);
    let asked = (request, pairs.len(), keys.len());
    same(&answer, &wanted, asked, message, start);
    if let Ok(body) = read {
        parts_of(message, &body, &tables);
    }
    our_pairs.assert_holds(&tables.pairs, "pair table");
    our_keys.assert_holds(&tables.keys, "key table");
    (answer, tables)
}

/// An authentication record.
pub fn read_header_auth_tag(message: &[u8], start: u64, suite: u32) -> Answer<AuthRecord> {
    let kept = Kept::new([message]);
    let read = bafirolen::read_header_auth_tag(message, start, suite);
    kept.assert_unchanged("read a record");
    let answer = read.map(|record| record.owned());
    let wanted = reference::read_header_auth_tag(message, start, suite)
        .map(auth)
        .map_err(refused);
    same(&answer, &wanted, suite, message, start);
    answer
}

/// Frames: the answer, and the table afterwards.
pub fn read_frames(
    message: &[u8],
    start: u64,
    frame_length: u32,
    table: &[u32],
) -> (Answer<Section>, Vec<u32>) {
    let (mut ours, mut theirs) = (Guarded::new(table), table.to_vec());
    let kept = Kept::new([message]);
    let read = bafirolen::read_frames(message, start, frame_length, ours.lend());
    kept.assert_unchanged("read frames");
    let answer = read.as_ref().map(Ours::owned).map_err(Refusal::clone);
    let wanted = reference::read_frames(message, start, frame_length, &mut theirs)
        .map(|read| section(read.frames, read.tail))
        .map_err(refused);
    let asked = (frame_length, table.len());
    same(&answer, &wanted, asked, message, start);
    if let Ok(frames) = read {
        let filled = &theirs[..6 * frames.len()];
        assert!(frames.frame_table() == filled, "frame table");
        frames_are(message, frames, filled);
    }
    ours.assert_holds(&theirs, "frame table");
    (answer, theirs)
}

/// A value's place; what its companion returns: the same part, at the same
/// place in memory; and its copy.
pub fn find_value(message: &[u8], start: u64, key: &[u8]) -> Answer<Place> {
    let kept = Kept::new([message, key]);
    let answer = bafirolen::find_value(message, start, key);
    kept.assert_unchanged("find a value");
    let wanted = reference::find(message, start, key)
        .map(place)
        .map_err(refused);
    same(&answer, &wanted, Asked(key), message, start);
    let bytes = bafirolen::find_bytes(message, start, key);
    let given = bytes.as_ref().map(|part| part.as_ptr_range());
    let placed = answer.as_ref().map(|place| {
        let part = place.within(message).expect("a value in its message");
        part.as_ptr_range()
    });
    assert!(given == placed, "{:?}: a value by its bytes", Asked(key));
    let ours = bafirolen::find_part(message, start, key);
    let theirs = reference::find_part(message, start, key);
    assert!(
        ours == theirs && ours.as_ptr() == theirs.as_ptr(),
        "{:?}: {:?} against {:?}, {}",
        Asked(key),
        few(ours),
        few(theirs),
        shown_at(message, start)
    );
    copies(message, start, key);
    answer
}

/// A value's copy: the answer, and the output afterwards.
pub fn copy_value(message: &[u8], start: u64, key: &[u8], out: &[u8]) -> (Answer<usize>, Vec<u8>) {
    let value = reference::find_part(message, start, key);
    let wanted = match reference::find(message, start, key) {
        Err(refusal) => Err(refused(refusal)),
        Ok(_) if out.len() < value.len() => Err(refused(reference::Refusal::of(OUTPUT))),
        Ok(_) => Ok(value.len()),
    };
    let mut copied = out.to_vec();
    if wanted.is_ok() {
        copied[..value.len()].copy_from_slice(value);
    }
    let mut ours = Guarded::new(out);
    let kept = Kept::new([message, key]);
    let answer = bafirolen::copy_value(message, start, key, ours.lend());
    kept.assert_unchanged("copy a value");
    same(&answer, &wanted, (Asked(key), out.len()), message, start);
    ours.assert_holds(&copied, "a value's copy");
    (answer, copied)
}

/// A value's copy, into outputs that hold it and outputs that don't.
fn copies(message: &[u8], start: u64, key: &[u8]) {
    let len = reference::find_part(message, start, key).len();
    for room in [0, len.saturating_sub(1), len, len + 3] {
        let out: Vec<u8> = (0..room).map(|i| !(i as u8)).collect();
        let _ = copy_value(message, start, key, &out);
    }
}

/// The number and the position that a host is told, a call each.
pub fn host_answer(message: &[u8], start: u64) -> (u32, u64) {
    let kept = Kept::new([message]);
    let ours = (
        bafirolen::header_number(message, start),
        bafirolen::header_position(message, start),
    );
    kept.assert_unchanged("what a host is told");
    let theirs = reference::host_answer(message, start);
    assert!(
        ours == theirs,
        "{ours:?} against {theirs:?}, {}",
        shown_at(message, start)
    );
    ours
}
