//! Answers held against what a generated request decides.

use crate::every::{parts_of_keys, parts_of_pairs};
use crate::numbers::{numbers, Answer};
use crate::reads;
use bafirolen::Request;
use generator::fields::Fields;
use generator::Expected;

/// The answer is the one the damage decides, if it decides one.
pub fn as_expected<T>(seed: u64, answer: &Answer<T>, expected: Expected) {
    let refusal = answer.as_ref().err();
    expected.assert_met(
        seed,
        refusal.map(|refusal| (refusal.number(), refusal.position())),
    );
}

/// The parts at a table's places, in order, are these.
pub fn parts_are<'a>(
    seed: u64,
    bytes: &[u8],
    table: &[u32],
    wanted: impl IntoIterator<Item = &'a [u8]>,
) {
    let got = table.chunks_exact(2).map(|place| {
        let start = place[0] as usize;
        &bytes[start..start + place[1] as usize]
    });
    assert!(got.eq(wanted), "seed {seed}: parts");
}

/// A body at a message's first byte reads as these fields, with tables that just
/// hold them, and ends at this tail.
pub fn reads_as(seed: u64, message: &[u8], request: Request, fields: &Fields, tail: usize) {
    let (pairs, keys) = (4 * fields.pairs.len(), 6 * fields.keys.len());
    let (pairs, keys) = (vec![3; pairs], vec![5; keys]);
    let (answer, tables) = reads::read_header_body(message, 0, request, &pairs, &keys);
    let body = answer.unwrap_or_else(|refusal| panic!("seed {seed}: {refusal}"));
    let stored = numbers(&fields.numbers().into());
    assert_eq!((body.numbers, body.tail), (stored, tail as u64));
    let counts = (fields.pairs.len(), fields.keys.len());
    assert_eq!((body.pair_count, body.key_count), counts, "seed {seed}");
    let id = body.message_id.within(message);
    let data = body.suite_data.within(message);
    assert_eq!(
        (id, data),
        (Some(&fields.id[..]), Some(&fields.suite_data[..]))
    );
    parts_are(seed, message, &tables.pairs, parts_of_pairs(&fields.pairs));
    parts_are(seed, message, &tables.keys, parts_of_keys(&fields.keys));
}
