//! Bodies under a policy: against the separate implementation, and against
//! ours without one.

use super::bodies::{bodies, headers_h, messages, SIZES};
use crate::answer::agreed;
use crate::table::Table;
use crate::{ours, theirs};
use bafirolen::Policy;
use generator::fields::Fields;
use generator::random::Random;
use generator::tables::{lend, Lent};
use std::hint::black_box;

/// One that reads the bodies, which are of version 1, and writes them.
const POLICY: Policy = Policy::ForbidEncryptAllowDecrypt;
const THEIRS: reference::Policy = reference::Policy::ForbidEncryptAllowDecrypt;

pub fn rows(table: &mut Table) {
    both(table, "H", &headers_h());
    // Enough to tell whether a policy costs anything beside many entries.
    let (name, pair_count, key_count) = SIZES[0];
    both(table, name, &bodies(pair_count, key_count));
    forbidden(table, "body read, forbidden by the policy", &headers_h());
}

fn both(table: &mut Table, name: &str, bodies: &[Fields]) {
    read(table, &format!("body read under a policy, {name}"), bodies);
    let mut random = Random::new(10);
    let requests: Vec<(&Fields, Lent)> = bodies
        .iter()
        .map(|body| (body, lend(&mut random, &body.pairs, &body.keys)))
        .collect();
    let what = format!("body write under a policy, {name}");
    write(table, &what, &requests);
}

type Tables = (Vec<u32>, Vec<u32>);

/// Ours under the policy beside another reader, both with tables that just hold
/// what the bodies have.
fn read_beside(
    table: &mut Table,
    (what, beside): (&str, &str),
    bodies: &[Fields],
    other: impl Fn(&[u8], &mut Tables) -> u64,
) {
    let messages = messages(bodies);
    let message = |call: usize| &black_box(&messages[..])[call % bodies.len()];
    let numbers = (4 * bodies[0].pairs.len(), 6 * bodies[0].keys.len());
    let [mut first, mut second] = [(); 2].map(|_| (vec![0; numbers.0], vec![0; numbers.1]));
    let times = agreed(
        bodies.len(),
        None,
        |call| {
            let (pairs, keys) = black_box(&mut first);
            ours::read_body_under(POLICY, message(call), pairs, keys)
        },
        |call| other(message(call), black_box(&mut second)),
    );
    assert!(first == second);
    table.row(what, beside, times);
}

fn read(table: &mut Table, what: &str, bodies: &[Fields]) {
    read_beside(table, (what, "reference"), bodies, |message, tables| {
        theirs::read_body_under(THEIRS, message, &mut tables.0, &mut tables.1)
    });
    let what = (what, "ours, no policy");
    read_beside(table, what, bodies, |message, tables| {
        ours::read_body(message, &mut tables.0, &mut tables.1)
    });
}

/// Ours under the policy beside another writer.
fn write_beside(
    table: &mut Table,
    (what, beside): (&str, &str),
    requests: &[(&Fields, Lent)],
    other: impl Fn(&Fields, &Lent, &mut [u8]) -> u64,
) {
    let request = |call: usize| &black_box(requests)[call % requests.len()];
    let (mut first, mut second) = (vec![0; 1 << 17], vec![0; 1 << 17]);
    let times = agreed(
        requests.len(),
        None,
        |call| {
            let (fields, lent) = request(call);
            ours::write_body_under(POLICY, fields, lent, black_box(&mut first))
        },
        |call| {
            let (fields, lent) = request(call);
            other(fields, lent, black_box(&mut second))
        },
    );
    assert!(first == second);
    table.row(what, beside, times);
}

fn write(table: &mut Table, what: &str, requests: &[(&Fields, Lent)]) {
    write_beside(table, (what, "reference"), requests, |fields, lent, out| {
        theirs::write_body_under(THEIRS, fields, lent, out)
    });
    let what = (what, "ours, no policy");
    write_beside(table, what, requests, ours::write_body);
}

/// Refused before the ID is read.
fn forbidden(table: &mut Table, what: &str, bodies: &[Fields]) {
    let messages = messages(bodies);
    let message = |call: usize| &black_box(&messages[..])[call % bodies.len()];
    let times = agreed(
        bodies.len(),
        Some(39),
        |call| {
            let policy = Policy::RequireEncryptRequireDecrypt;
            ours::read_body_under(policy, message(call), &mut [], &mut [])
        },
        |call| {
            let policy = reference::Policy::RequireEncryptRequireDecrypt;
            theirs::read_body_under(policy, message(call), &mut [], &mut [])
        },
    );
    table.row(what, "reference", times);
}
