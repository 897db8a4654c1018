//! Drafts by their sizes: contexts of 65,533 bytes of pairs, parts of 65,535
//! bytes, and 65,535 keys.

use super::mending::draft_of;
use super::mending_sizes::{long_key, many, MOST};
use super::reissuing::{added, becomes, DATA, ID};
use super::Reissue;
use crate::headers::hex;
use crate::image::{pairs_length, section, Form};
use crate::many::{pairs, ORDERS};
use crate::random::Random;
use crate::Pair;

/// The draft with these sections becomes the body with the same, wherever it
/// stands.
fn reissued(codec: &impl Reissue, context: &[u8], keys: &[u8]) -> u64 {
    let sections = [context, keys].concat();
    let draft = draft_of(1, "", &sections);
    let front = [&hex("02 05 78"), &ID[..]].concat();
    let image = [&front, &sections, &hex("02 00 00 10 00"), &DATA[..]].concat();
    assert_eq!(image.len(), draft.len() + 42);
    let message = [b"before", &draft[..], b"behind"].concat();
    becomes(codec, (&draft, 0), added(0x0578), &image)
        + becomes(codec, (&message, 6), added(0x0578), &image)
}

/// How many drafts the functions below have, each of them in two messages.
pub const DRAFTS: u64 = 2 * ((3 + 3) + 3 * 3 + 10);

/// The most bytes that pairs take: in one key, in one value, in two pairs; and
/// 10,922 pairs in each order, which take one less.
pub fn longest_contexts(codec: &impl Reissue) -> u64 {
    let letters = |count| vec![b'k'; count];
    let mut contexts: Vec<Vec<Pair>> = vec![
        vec![(letters(65_529), letters(0))],
        vec![(letters(0), letters(65_529))],
        vec![(letters(1), letters(2)), (letters(30_000), letters(35_522))],
    ];
    assert!(contexts.iter().all(|pairs| pairs_length(pairs) == 65_533));
    let mut random = Random::new(1_121);
    contexts.extend(ORDERS.map(|order| pairs(&mut random, 10_922, (2, 0), order)));
    let reissue = |pairs: Vec<Pair>| {
        let context = section(&pairs, Form::Today).bytes;
        reissued(codec, &context, &hex("0001 000161 0000 0001AA"))
    };
    contexts.into_iter().map(reissue).sum()
}

/// Each part in turn: alone, before another key, and behind one.
pub fn longest_parts(codec: &impl Reissue) -> u64 {
    let small = hex("00017A 0000 0001AA");
    let mut answers = 0;
    for part in 0..3 {
        let long = long_key(part, 65_535);
        for keys in [
            [&hex("0001")[..], &long].concat(),
            [&hex("0002")[..], &long, &small].concat(),
            [&hex("0002")[..], &small, &long].concat(),
        ] {
            answers += reissued(codec, &hex("0000"), &keys);
        }
    }
    answers
}

/// Up to as many keys as there can be.
pub fn many_keys(codec: &impl Reissue) -> u64 {
    let counts = [1, 2, 255, 256, 257, 10_923, 32_768, 65_280, MOST - 1, MOST];
    let reissue = |count| reissued(codec, &hex("0000"), &many(count, |at| at % 3 == 0));
    counts.into_iter().map(reissue).sum()
}
