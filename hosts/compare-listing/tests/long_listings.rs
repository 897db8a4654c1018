//! Listings of more than 70,000 bytes, up to the longest that an input of
//! 65,536 bytes has.

use compare_listing::{compared, listed};
use generator::fields::Fields;
use generator::large::{agreeing, plain};
use generator::lines::listing;

/// The program's input buffer.
const INPUT: usize = 65_536;

/// Fields with so many pairs and keys, filled up to a message of `length`
/// bytes by the last key's ciphertext.
fn filled(version: u32, pairs: usize, keys: usize, length: usize) -> Fields {
    let mut fields = plain(version);
    fields.pairs = agreeing(9, 4, pairs);
    fields.keys = vec![[b"p".to_vec(), vec![0xFF; 3], Vec::new()]; keys];
    let rest = length - fields.image().bytes.len();
    fields.keys[keys - 1][2] = (0..rest).map(|at| at as u8).collect();
    fields
}

#[test]
fn above_70_000_bytes() {
    let mut count = 0;
    let mut longest = 0;
    for version in [1, 2] {
        for (pairs, keys) in [(0, 1), (3, 2), (1_024, 1), (0, 682), (1_024, 682)] {
            for length in [40_000, 50_000, INPUT - 1, INPUT] {
                let fields = filled(version, pairs, keys, length);
                let message = fields.image().bytes;
                assert_eq!(message.len(), length);
                let text = listing(&fields);
                assert!(text.len() > 70_000, "{}", text.len());
                longest = longest.max(text.len());
                let what = format!("version {version}, {pairs} pairs, {keys} keys, {length} bytes");
                listed(&what, &message, text.as_bytes());
                count += 1;
            }
        }
    }
    assert!(longest > 2 * INPUT - 100, "{longest}");
    assert_eq!(count, 2 * 5 * 4);
    compared(count, "listings above 70,000 bytes");
}
