//! Context sections, against the separate implementation.

use super::lists::{lists, rotation, varied};
use super::required;
use crate::answer::agreed;
use crate::table::Table;
use crate::{ours, theirs};
use generator::image::{section, Form};
use generator::many::{pairs, Order, MOST, ORDERS};
use generator::random::Random;
use generator::tables::{lend, Lent};
use generator::Pair;
use std::hint::black_box;

/// Counts of pairs, with the lengths of their keys and values that a section
/// has room for.
const SIZES: [(usize, (usize, usize)); 6] = [
    (1, (10, 16)),
    (10, (10, 16)),
    (32, (10, 16)),
    (200, (10, 16)),
    (2_000, (8, 12)),
    (MOST, (2, 0)),
];
/// As many as a writer takes. Every pair is tested before their bytes, of
/// which a section holds fewer than half.
const TOO_MANY: usize = 65_535;
const PAIRS_TOO_LONG: u32 = 13;

pub fn rows(table: &mut Table) {
    reads(table);
    finds(table);
    writes(table);
    required::rows(table);
}

fn reads(table: &mut Table) {
    for (count, lengths) in SIZES {
        let orders = if count == 1 { &ORDERS[..1] } else { &ORDERS };
        for &order in orders {
            let what = format!("context read, {}, {}", counted(count), name(order));
            read(table, &what, &lists(count, lengths, order));
        }
    }
    // 200 bytes that all keys begin with.
    let mut common = lists(200, (4, 16), Order::Shuffled);
    for (key, _) in common.iter_mut().flatten() {
        key.splice(..0, [b'k'; 200]);
    }
    read(table, "context read, 200 pairs, long prefixes", &common);
    read(table, "context read, a value of 60,000", &long());
    read(table, "context read, empty", &empty());
}

fn writes(table: &mut Table) {
    for (count, lengths) in SIZES {
        let what = format!("context write, {}, shuffled", counted(count));
        write(table, &what, None, &lists(count, lengths, Order::Shuffled));
    }
    let (count, lengths) = SIZES[SIZES.len() - 1];
    let what = format!("context write, {}, descending", counted(count));
    write(
        table,
        &what,
        None,
        &lists(count, lengths, Order::Descending),
    );
    let what = "context write, 65535 pairs, descending, refused";
    let refused = Some(PAIRS_TOO_LONG);
    write(
        table,
        what,
        refused,
        &lists(TOO_MANY, (3, 0), Order::Descending),
    );
    write(table, "context write, a value of 60,000", None, &long());
    write(table, "context write, empty", None, &empty());
}

fn long() -> Vec<Vec<Pair>> {
    varied(rotation(200), |_| vec![(b"k".to_vec(), vec![b'v'; 60_000])])
}

/// There is but one.
fn empty() -> Vec<Vec<Pair>> {
    vec![Vec::new(); rotation(200)]
}

fn name(order: Order) -> &'static str {
    match order {
        Order::Ascending => "ascending",
        Order::Descending => "descending",
        Order::Shuffled => "shuffled",
    }
}

pub fn counted(count: usize) -> String {
    format!("{count} pair{}", if count == 1 { "" } else { "s" })
}

fn messages(lists: &[Vec<Pair>]) -> Vec<Vec<u8>> {
    let bytes = |pairs: &Vec<Pair>| section(pairs, Form::Today).bytes;
    lists.iter().map(bytes).collect()
}

fn read(table: &mut Table, what: &str, lists: &[Vec<Pair>]) {
    let messages = messages(lists);
    let numbers = 4 * lists[0].len();
    let (mut our_table, mut their_table) = (vec![0; numbers], vec![0; numbers]);
    let message = |call: usize| &black_box(&messages[..])[call % lists.len()];
    let times = agreed(
        lists.len(),
        None,
        |call| ours::read_context(message(call), black_box(&mut our_table)),
        |call| theirs::read_context(message(call), black_box(&mut their_table)),
    );
    assert!(our_table == their_table);
    table.row(what, "reference", times);
}

/// Each message is asked for the key of a pair drawn at random.
fn finds(table: &mut Table) {
    let mut random = Random::new(12);
    let lists = varied(rotation(200), |random| {
        pairs(random, 200, (10, 16), Order::Shuffled)
    });
    let messages = messages(&lists);
    let asked: Vec<&[u8]> = lists
        .iter()
        .map(|pairs| &pairs[random.index(pairs.len())].0[..])
        .collect();
    let request = |call: usize| {
        let at = call % lists.len();
        (&black_box(&messages[..])[at][..], black_box(&asked[..])[at])
    };
    let times = agreed(
        lists.len(),
        None,
        |call| ours::find(request(call).0, request(call).1),
        |call| theirs::find(request(call).0, request(call).1),
    );
    table.row("find, 200 pairs", "reference", times);
}

fn write(table: &mut Table, what: &str, refusal: Option<u32>, lists: &[Vec<Pair>]) {
    let mut random = Random::new(6);
    let lent: Vec<Lent> = lists
        .iter()
        .map(|pairs| lend(&mut random, pairs, &[]))
        .collect();
    let (mut our_out, mut their_out) = (vec![0; 1 << 16 | 2], vec![0; 1 << 16 | 2]);
    let lent = |call: usize| &black_box(&lent[..])[call % lists.len()];
    let times = agreed(
        lists.len(),
        refusal,
        |call| ours::write_context(lent(call), black_box(&mut our_out)),
        |call| theirs::write_context(lent(call), black_box(&mut their_out)),
    );
    assert!(our_out == their_out);
    table.row(what, "reference", times);
}
