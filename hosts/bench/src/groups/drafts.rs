//! Drafts mended in their buffer: keys dropped, and one added, against the
//! separate implementation, which splices vectors.
//!
//! A draft that was mended is another one, so each call gets a fresh copy. The
//! copy is in the times of both sides. A second row has beside ours that copy
//! alone, and of a key that is added its parts.

use super::bodies::{bodies, headers_h, messages};
use super::keys::key;
use crate::answer::agreed;
use crate::table::Table;
use crate::{ours, theirs};
use generator::random::Random;
use generator::Key;
use std::hint::black_box;

/// Drafts, each with the provider ID that is to go.
type Drafts = (Vec<Vec<u8>>, Vec<Vec<u8>>);

pub fn rows(table: &mut Table) {
    dropped(table, "1 of 3 keys dropped, H", one_of_three());
    dropped(table, "30 of 60 keys dropped", every_second(60, kms_key));
    let most = every_second(65_535, short_key);
    dropped(table, "32,768 of 65,535 keys dropped", most);
    kept(table, "none of 60 keys dropped", every_second(60, kms_key));
    added(table, "a key added, H", 3);
    added(table, "a key of 60,000 bytes added, H", 60_000);
}

/// Headers like H with three keys; by turns the first, the second and the third
/// has the ID.
fn one_of_three() -> Drafts {
    let mut headers = headers_h();
    for (at, header) in headers.iter_mut().enumerate() {
        let [_, info, ciphertext] = header.keys[0].clone();
        for id in [b"q2", b"q3"] {
            header
                .keys
                .push([id.to_vec(), info.clone(), ciphertext.clone()]);
        }
        header.keys.rotate_left(at % 3);
    }
    let ids = headers.iter().map(|_| b"q2".to_vec());
    (messages(&headers), ids.collect())
}

/// A key as a key service has it, and one like that of H.
fn kms_key(random: &mut Random) -> Key {
    key(random, 184)
}

fn short_key(random: &mut Random) -> Key {
    [b"aws-kms".to_vec(), random.bytes(1), random.bytes(3)]
}

/// Bodies with so many keys. Every second, from the first on, has an ID that is
/// as long as the others'.
fn every_second(count: usize, one: fn(&mut Random) -> Key) -> Drafts {
    let mut random = Random::new(23);
    let mut bodies = bodies(1, 1);
    for body in &mut bodies {
        body.keys = (0..count).map(|_| one(&mut random)).collect();
        for key in body.keys.iter_mut().step_by(2) {
            key[0] = b"aws-old".to_vec();
        }
    }
    let ids = bodies.iter().map(|body| body.keys[0][0].clone());
    (messages(&bodies), ids.collect())
}

fn dropped(table: &mut Table, what: &str, (drafts, ids): Drafts) {
    mended(
        table,
        (what, &[]),
        &drafts,
        |call, draft| ours::drop_keys(draft, &ids[call % ids.len()]),
        |call, draft| theirs::drop_keys(draft, &ids[call % ids.len()]),
    );
}

fn added(table: &mut Table, what: &str, ciphertext: usize) {
    let key = &key(&mut Random::new(24), ciphertext);
    mended(
        table,
        (what, key),
        &messages(&headers_h()),
        |_, draft| ours::add_key(draft, black_box(key)),
        |_, draft| theirs::add_key(draft, black_box(key)),
    );
}

/// A draft from the front of a buffer on, and so many bytes behind it.
fn fresh<'b>(draft: &[u8], room: usize, buffer: &'b mut [u8]) -> &'b mut [u8] {
    buffer[..draft.len()].copy_from_slice(draft);
    black_box(&mut buffer[..draft.len() + room])
}

/// Copies the parts to the end of a buffer.
fn copy(parts: &[Vec<u8>], buffer: &mut [u8]) {
    let mut end = buffer.len();
    for part in black_box(parts) {
        let at = end - part.len();
        buffer[at..end].copy_from_slice(part);
        end = at;
    }
}

/// The calls are numbered, and take the drafts in rotation. Behind each is room
/// for what is added.
fn mended(
    table: &mut Table,
    (what, parts): (&str, &[Vec<u8>]),
    drafts: &[Vec<u8>],
    ours: impl Fn(usize, &mut [u8]) -> u64,
    theirs: impl Fn(usize, &mut [u8]) -> u64,
) {
    let what = format!("draft copied, {what}");
    let draft = |call: usize| &black_box(drafts)[call % drafts.len()][..];
    let room = parts.iter().map(|part| 2 + part.len()).sum();
    let longest = drafts.iter().map(Vec::len).max().unwrap_or(0) + room;
    let [mut first, mut second] = [(); 2].map(|_| vec![0; longest]);
    let times = agreed(
        drafts.len(),
        None,
        |call| ours(call, fresh(draft(call), room, &mut first)),
        |call| theirs(call, fresh(draft(call), room, &mut second)),
    );
    assert!(first == second);
    table.row(&what, "reference", times);

    let tail = |call| theirs(call, fresh(draft(call), room, &mut second));
    let tails: Vec<u64> = (0..drafts.len()).map(tail).collect();
    let times = agreed(
        drafts.len(),
        None,
        |call| ours(call, fresh(draft(call), room, &mut first)),
        |call| {
            copy(parts, fresh(draft(call), room, &mut second));
            tails[call % tails.len()]
        },
    );
    table.row(&what, "copy_from_slice", times);
}

/// An ID that no key has: nothing changes, so that no copy is needed.
fn kept(table: &mut Table, what: &str, (drafts, _): Drafts) {
    let (mut first, mut second) = (drafts.clone(), drafts.clone());
    let count = drafts.len();
    let times = agreed(
        count,
        None,
        |call| ours::drop_keys(black_box(&mut first[call % count]), b"aws-new"),
        |call| theirs::drop_keys(black_box(&mut second[call % count]), b"aws-new"),
    );
    assert!(first == drafts && second == drafts);
    table.row(what, "reference", times);
}
