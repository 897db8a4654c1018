//! Key sections, against the separate implementation.

use super::lists::ROTATION;
use crate::answer::agreed;
use crate::table::Table;
use crate::{ours, theirs};
use generator::image::keys;
use generator::random::Random;
use generator::tables::{lend, Lent};
use generator::Key;
use std::hint::black_box;

/// How many keys, and the bytes of each ciphertext.
const SIZES: [(usize, usize); 5] = [(1, 184), (3, 184), (60, 184), (1, 60), (1, 60_000)];

pub fn rows(table: &mut Table) {
    for (count, ciphertext) in SIZES {
        let lists = lists(count, ciphertext);
        let what = match count {
            1 => format!("1 key, ciphertext {ciphertext}"),
            _ => format!("{count} keys, ciphertexts {ciphertext}"),
        };
        read(table, &format!("keys read, {what}"), &lists);
        write(table, &format!("keys write, {what}"), &lists);
    }
}

/// A key as a key service has it: its name, the key's, and random bytes. The
/// names' lengths differ, so that no branch predictor knows them all.
pub fn key(random: &mut Random, ciphertext: usize) -> Key {
    let mut info = b"arn:aws:kms:us-west-2:123456789012:key/".to_vec();
    info.resize(info.len() + 20 + random.index(30), b'f');
    [b"aws-kms".to_vec(), info, random.bytes(ciphertext)]
}

fn lists(count: usize, ciphertext: usize) -> Vec<Vec<Key>> {
    let mut random = Random::new(7);
    let copies = (20_000 / (count * ciphertext)).clamp(ROTATION, 128);
    (0..copies)
        .map(|_| (0..count).map(|_| key(&mut random, ciphertext)).collect())
        .collect()
}

fn read(table: &mut Table, what: &str, lists: &[Vec<Key>]) {
    let messages: Vec<Vec<u8>> = lists.iter().map(|list| keys(list).bytes).collect();
    let numbers = 6 * lists[0].len();
    let (mut our_table, mut their_table) = (vec![0; numbers], vec![0; numbers]);
    let message = |call: usize| &black_box(&messages[..])[call % lists.len()];
    let times = agreed(
        lists.len(),
        None,
        |call| ours::read_keys(message(call), black_box(&mut our_table)),
        |call| theirs::read_keys(message(call), black_box(&mut their_table)),
    );
    assert!(our_table == their_table);
    table.row(what, "reference", times);
}

fn write(table: &mut Table, what: &str, lists: &[Vec<Key>]) {
    let mut random = Random::new(8);
    let lent: Vec<Lent> = lists
        .iter()
        .map(|keys| lend(&mut random, &[], keys))
        .collect();
    let (mut our_out, mut their_out) = (vec![0; 1 << 17], vec![0; 1 << 17]);
    let lent = |call: usize| &black_box(&lent[..])[call % lists.len()];
    let times = agreed(
        lists.len(),
        None,
        |call| ours::write_keys(lent(call), black_box(&mut our_out)),
        |call| theirs::write_keys(lent(call), black_box(&mut their_out)),
    );
    assert!(our_out == their_out);
    table.row(what, "reference", times);
}
