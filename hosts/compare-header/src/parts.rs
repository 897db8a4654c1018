//! Pairs, keys and frames as ours gives them, held against the tables of the
//! separate implementation.

use bafirolen::{Frame, Key, Pair};
use std::ops::Range;

/// The part at the `nth` place of a table.
fn part<'m>(message: &'m [u8], table: &[u32], nth: usize) -> &'m [u8] {
    let start = table[2 * nth] as usize;
    &message[start..start + table[2 * nth + 1] as usize]
}

fn range(part: &[u8]) -> Range<*const u8> {
    part.as_ptr_range()
}

/// The pairs are those at the table's places: the same bytes, at the same
/// place in memory.
pub fn pairs_are<'m>(
    message: &[u8],
    pairs: impl ExactSizeIterator<Item = Pair<'m>>,
    table: &[u32],
) {
    assert_eq!(4 * pairs.len(), table.len(), "pairs");
    let mut nth = 0;
    for pair in pairs {
        assert!(
            range(pair.key) == range(part(message, table, nth))
                && range(pair.value) == range(part(message, table, nth + 1)),
            "pair {}",
            nth / 2
        );
        nth += 2;
    }
    assert_eq!(2 * nth, table.len(), "pairs given");
}

/// The same of keys.
pub fn keys_are<'m>(message: &[u8], keys: impl ExactSizeIterator<Item = Key<'m>>, table: &[u32]) {
    assert_eq!(6 * keys.len(), table.len(), "keys");
    let mut nth = 0;
    for key in keys {
        assert!(
            range(key.provider_id) == range(part(message, table, nth))
                && range(key.provider_info) == range(part(message, table, nth + 1))
                && range(key.ciphertext) == range(part(message, table, nth + 2)),
            "key {}",
            nth / 3
        );
        nth += 3;
    }
    assert_eq!(2 * nth, table.len(), "keys given");
}

/// The same of frames.
pub fn frames_are<'m>(
    message: &[u8],
    frames: impl ExactSizeIterator<Item = Frame<'m>>,
    table: &[u32],
) {
    assert_eq!(6 * frames.len(), table.len(), "frames");
    let mut nth = 0;
    for frame in frames {
        assert!(
            range(frame.iv) == range(part(message, table, nth))
                && range(frame.content) == range(part(message, table, nth + 1))
                && range(frame.tag) == range(part(message, table, nth + 2)),
            "frame {}",
            nth / 3
        );
        nth += 3;
    }
    assert_eq!(2 * nth, table.len(), "frames given");
}
