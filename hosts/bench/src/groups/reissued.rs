//! Drafts of version 1 reissued: against the separate implementation, and
//! against ours where a host reads the draft and writes what it read, which is
//! what it did before and needs tables.

use super::bodies::{bodies, headers_h, messages, old_headers, SIZES};
use super::keys::key;
use crate::answer::agreed;
use crate::table::Table;
use crate::{ours, theirs};
use generator::fields::Fields;
use generator::random::Random;
use generator::rows::Added;
use std::hint::black_box;

pub fn rows(table: &mut Table) {
    both(table, "H", &headers_h());
    both(table, "old empty context", &old_headers());
    let [few, _, _, many] = SIZES;
    for (name, pair_count, key_count) in [few, many] {
        both(table, name, &bodies(pair_count, key_count));
    }
    both(table, "a ciphertext of 60,000", &long_ciphertexts());
}

fn long_ciphertexts() -> Vec<Fields> {
    let mut random = Random::new(25);
    let mut bodies = bodies(1, 1);
    for body in &mut bodies {
        body.keys = vec![key(&mut random, 60_000)];
    }
    bodies
}

/// What every draft gets.
const ADDED: Added<'static> = Added {
    suite: 0x0578,
    id: &[0x1D; 32],
    suite_data: &[0xDA; 32],
};

/// The outputs have room for more than any body here takes.
fn both(table: &mut Table, name: &str, bodies: &[Fields]) {
    let what = format!("draft reissued, {name}");
    let messages = messages(bodies);
    let message = |call: usize| &black_box(&messages[..])[call % bodies.len()];
    let [mut first, mut second] = [(); 2].map(|_| vec![0; 1 << 17]);
    let times = agreed(
        bodies.len(),
        None,
        |call| ours::reissue(message(call), black_box(ADDED), black_box(&mut first)),
        |call| theirs::reissue(message(call), black_box(ADDED), black_box(&mut second)),
    );
    assert!(first == second);
    table.row(&what, "reference", times);

    let mut pairs = vec![0; 4 * bodies[0].pairs.len()];
    let mut keys = vec![0; 6 * bodies[0].keys.len()];
    let times = agreed(
        bodies.len(),
        None,
        |call| ours::reissue(message(call), black_box(ADDED), black_box(&mut first)),
        |call| {
            let (tables, out) = ((&mut pairs, &mut keys), black_box(&mut second));
            ours::read_and_write_anew(message(call), black_box(ADDED), black_box(tables), out)
        },
    );
    assert!(first == second);
    table.row(&what, "ours, read and write", times);
}
