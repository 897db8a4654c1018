//! Whole bodies, and a listing, against the separate implementation.

use super::keys::key;
use super::lists::{varied, ROTATION};
use crate::answer::agreed;
use crate::table::Table;
use crate::{ours, theirs};
use generator::fields::Fields;
use generator::image::Form;
use generator::many::{pairs, Order};
use generator::random::Random;
use generator::tables::{lend, Lent};
use generator::{Key, Pair};
use std::hint::black_box;

/// A body's name, its pairs and its keys.
pub(super) const SIZES: [(&str, usize, usize); 4] = [
    ("10 pairs, 3 keys", 10, 3),
    ("200 pairs, 1 key", 200, 1),
    ("1100 pairs, 1 key", 1_100, 1),
    ("1 pair, 60 keys", 1, 60),
];

pub fn rows(table: &mut Table) {
    let h = headers_h();
    read(table, "body read, H", &h);
    write(table, "body write, H", &h);
    write(table, "body write, old empty context", &old_headers());
    refile(table, "body read, then written again, H", &h);
    for (name, pair_count, key_count) in SIZES {
        let bodies = bodies(pair_count, key_count);
        read(table, &format!("body read, {name}"), &bodies);
        write(table, &format!("body write, {name}"), &bodies);
    }
    listing(table, "listing, H", &h);
}

/// Header H of document 01, and others with parts as long as its.
pub(super) fn headers_h() -> Vec<Fields> {
    let mut random = Random::new(11);
    let mut headers = vec![fields(
        (0..16).collect(),
        vec![(b"lang".to_vec(), b"cy".to_vec())],
        vec![[b"p1".to_vec(), b"a".to_vec(), vec![0xAA, 0xBB, 0xCC]]],
    )];
    while headers.len() < ROTATION {
        let mut letters = |count: usize| {
            let letter = |_| b'a' + random.index(26) as u8;
            (0..count).map(letter).collect::<Vec<u8>>()
        };
        let pairs = vec![(letters(4), letters(2))];
        let [provider, info] = [letters(2), letters(1)];
        let keys = vec![[provider, info, random.bytes(3)]];
        headers.push(fields(random.bytes(16), pairs, keys));
    }
    headers
}

/// The same with an empty context in its old form.
pub(super) fn old_headers() -> Vec<Fields> {
    let mut headers = headers_h();
    for fields in &mut headers {
        fields.pairs.clear();
        fields.form = Form::Old.mark();
    }
    headers
}

pub(super) fn bodies(pair_count: usize, key_count: usize) -> Vec<Fields> {
    let mut random = Random::new(9);
    let lists = varied(ROTATION, |random| {
        pairs(random, pair_count, (10, 16), Order::Shuffled)
    });
    lists
        .into_iter()
        .map(|pairs| {
            let keys = (0..key_count).map(|_| key(&mut random, 184)).collect();
            fields(random.bytes(16), pairs, keys)
        })
        .collect()
}

/// Those of header H, but for the ID, pairs and keys.
fn fields(id: Vec<u8>, pairs: Vec<Pair>, keys: Vec<Key>) -> Fields {
    Fields {
        version: 1,
        message_type: 0x80,
        suite: 0x0178,
        id,
        pairs,
        keys,
        content_type: 2,
        iv_length: 12,
        frame_length: 4_096,
        form: Form::Today.mark(),
        suite_data: Vec::new(),
    }
}

pub(super) fn messages(bodies: &[Fields]) -> Vec<Vec<u8>> {
    let image = |body: &Fields| body.image().bytes;
    bodies.iter().map(image).collect()
}

fn read(table: &mut Table, what: &str, bodies: &[Fields]) {
    let messages = messages(bodies);
    let message = |call: usize| &black_box(&messages[..])[call % bodies.len()];
    let numbers = (4 * bodies[0].pairs.len(), 6 * bodies[0].keys.len());
    let [mut ours, mut theirs] = [(); 2].map(|_| (vec![0; numbers.0], vec![0; numbers.1]));
    let times = agreed(
        bodies.len(),
        None,
        |call| {
            let (pairs, keys) = black_box(&mut ours);
            ours::read_body(message(call), pairs, keys)
        },
        |call| {
            let (pairs, keys) = black_box(&mut theirs);
            theirs::read_body(message(call), pairs, keys)
        },
    );
    assert!(ours == theirs);
    table.row(what, "reference", times);
}

fn write(table: &mut Table, what: &str, bodies: &[Fields]) {
    let mut random = Random::new(10);
    let requests: Vec<(&Fields, Lent)> = bodies
        .iter()
        .map(|body| (body, lend(&mut random, &body.pairs, &body.keys)))
        .collect();
    let request = |call: usize| &black_box(&requests[..])[call % bodies.len()];
    let (mut our_out, mut their_out) = (vec![0; 1 << 17], vec![0; 1 << 17]);
    let times = agreed(
        bodies.len(),
        None,
        |call| {
            let (fields, lent) = request(call);
            ours::write_body(fields, lent, black_box(&mut our_out))
        },
        |call| {
            let (fields, lent) = request(call);
            theirs::write_body(fields, lent, black_box(&mut their_out))
        },
    );
    assert!(our_out == their_out);
    table.row(what, "reference", times);
}

/// Reads each body and writes it again, to the bytes that were read.
fn refile(table: &mut Table, what: &str, bodies: &[Fields]) {
    let messages = messages(bodies);
    let message = |call: usize| &black_box(&messages[..])[call % bodies.len()];
    let [mut ours, mut theirs] = [(); 2].map(|_| {
        let numbers = (4 * bodies[0].pairs.len(), 6 * bodies[0].keys.len());
        (vec![0; numbers.0], vec![0; numbers.1], vec![0; 256])
    });
    let times = agreed(
        bodies.len(),
        None,
        |call| {
            let (pairs, keys, out) = black_box(&mut ours);
            ours::refile_body(message(call), pairs, keys, out)
        },
        |call| {
            let (pairs, keys, out) = black_box(&mut theirs);
            theirs::refile_body(message(call), pairs, keys, out)
        },
    );
    assert!(ours == theirs);
    assert!(messages.iter().any(|message| ours.2.starts_with(message)));
    table.row(what, "reference", times);
}

fn listing(table: &mut Table, what: &str, bodies: &[Fields]) {
    let messages = messages(bodies);
    let message = |call: usize| &black_box(&messages[..])[call % bodies.len()];
    let (mut our_out, mut their_out) = ([0; 256], [0; 256]);
    let times = agreed(
        bodies.len(),
        None,
        |call| ours::write_listing(message(call), black_box(&mut our_out)),
        |call| theirs::write_listing(message(call), black_box(&mut their_out)),
    );
    assert!(our_out == their_out);
    table.row(what, "reference", times);
}
