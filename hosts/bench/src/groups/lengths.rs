//! The length of a body before it is written: against the separate
//! implementation, and what asking adds to a write.

use super::bodies::{bodies, headers_h, old_headers, SIZES};
use crate::answer::agreed;
use crate::table::Table;
use crate::{ours, theirs};
use generator::fields::Fields;
use generator::random::Random;
use generator::tables::{lend, Lent};
use std::hint::black_box;

pub fn rows(table: &mut Table) {
    both(table, "H", &headers_h());
    both(table, "old empty context", &old_headers());
    for (name, pair_count, key_count) in SIZES {
        both(table, name, &bodies(pair_count, key_count));
    }
}

fn both(table: &mut Table, name: &str, bodies: &[Fields]) {
    let mut random = Random::new(10);
    let requests: Vec<(&Fields, Lent)> = bodies
        .iter()
        .map(|body| (body, lend(&mut random, &body.pairs, &body.keys)))
        .collect();
    length(table, &format!("body length, {name}"), &requests);
    write(table, &format!("body length and write, {name}"), &requests);
}

fn length(table: &mut Table, what: &str, requests: &[(&Fields, Lent)]) {
    let request = |call: usize| &black_box(requests)[call % requests.len()];
    let times = agreed(
        requests.len(),
        None,
        |call| {
            let (fields, lent) = request(call);
            ours::body_len(fields, lent)
        },
        |call| {
            let (fields, lent) = request(call);
            theirs::body_len(fields, lent)
        },
    );
    table.row(what, "reference", times);
}

/// Both sides are ours. The output of the one is just as long as the body, and
/// that of the other longer.
fn write(table: &mut Table, what: &str, requests: &[(&Fields, Lent)]) {
    let request = |call: usize| &black_box(requests)[call % requests.len()];
    let (mut out, mut other) = (vec![0; 1 << 17], vec![0; 1 << 17]);
    let times = agreed(
        requests.len(),
        None,
        |call| {
            let (fields, lent) = request(call);
            ours::measure_and_write_body(fields, lent, black_box(&mut out))
        },
        |call| {
            let (fields, lent) = request(call);
            ours::write_body(fields, lent, black_box(&mut other))
        },
    );
    assert!(out == other);
    table.row(what, "ours, write alone", times);
}
