//! Drafts by their sizes: counts of one byte and two, parts of 65,535 bytes, and
//! 65,535 keys.

use super::mending::draft_of;
use super::{Mend, Refused};
use crate::headers::hex;

/// The old form, which stays.
const CONTEXT: &str = "00 02 00 00";

/// Drops, and holds the buffer afterwards to the draft with these keys, 00 up to
/// the old tail, and what stands behind. Answers how many answers there were, as
/// do the two below.
fn drops(mend: &impl Mend, version: u32, (before, id): (&[u8], &[u8]), after: &[u8]) -> u64 {
    let old = draft_of(version, CONTEXT, before);
    let mut buffer = [&old, &b"rest"[..]].concat();
    let mut new = draft_of(version, CONTEXT, after);
    let tail = new.len() as u64;
    assert_eq!(mend.drop_keys(&mut buffer, id), Ok(tail));
    new.resize(old.len(), 0);
    new.extend(b"rest");
    assert!(buffer == new, "the buffer afterwards, {tail}");
    1
}

/// A refused drop, or a refused addition, and a buffer that keeps.
fn keeps(
    version: u32,
    keys: &[u8],
    wanted: Refused,
    mends: impl Fn(&mut [u8]) -> Result<u64, Refused>,
) -> u64 {
    let mut before = draft_of(version, CONTEXT, keys);
    before.resize(before.len() + 70_000, 0xEE);
    let mut buffer = before.clone();
    assert_eq!(mends(&mut buffer), Err(wanted));
    assert!(buffer == before, "{wanted:?}");
    1
}

/// Adds to a buffer that just holds the longer draft, and to a longer one.
fn adds(mend: &impl Mend, version: u32, (before, key): (&[u8], [&[u8]; 3]), after: &[u8]) -> u64 {
    let old = draft_of(version, CONTEXT, before);
    let new = draft_of(version, CONTEXT, after);
    for more in [0, 3] {
        let mut buffer = old.clone();
        buffer.resize(new.len() + more, 0xEE);
        assert_eq!(mend.add_key(&mut buffer, key), Ok(new.len() as u64));
        assert!(buffer.starts_with(&new), "the longer draft");
        assert!(buffer[new.len()..].iter().all(|&byte| byte == 0xEE));
    }
    2
}

/// A key whose `part` has so many letters, and none of the others any; its three
/// entries.
pub(super) fn long_key(part: usize, letters: usize) -> Vec<u8> {
    let mut bytes = Vec::new();
    for at in 0..3 {
        let count = if at == part { letters } else { 0 };
        bytes.extend((count as u16).to_be_bytes());
        bytes.resize(bytes.len() + count, b'k');
    }
    bytes
}

/// A part of 65,535 bytes: of a key that is added, of one that is dropped, and
/// of one that stays before it or behind it.
pub fn longest_parts(mend: &impl Mend) -> u64 {
    let letters = vec![b'k'; 65_536];
    let mut answers = 0;
    let small = hex("00017A 0000 0001AA");
    for version in [1, 2] {
        for part in 0..3 {
            let long = long_key(part, 65_535);
            let one = [&hex("0001"), &small[..]].concat();
            let behind = [&hex("0002"), &small[..], &long].concat();
            let before = [&hex("0002"), &long[..], &small].concat();
            let alone = [&hex("0001"), &long[..]].concat();
            let mut key = [&b""[..]; 3];
            key[part] = &letters[..65_535];
            answers += adds(mend, version, (&one, key), &behind);
            answers += drops(mend, version, (&behind, key[0]), &one);
            answers += drops(mend, version, (&behind, b"z"), &alone);
            answers += drops(mend, version, (&before, b"z"), &alone);
            key[part] = &letters;
            answers += keeps(version, &one, (27, 0), |draft| mend.add_key(draft, key));
        }
        // IDs that begin this one, or that it begins, are others.
        let id = [&hex("0002"), &small[..], &long_key(0, 65_535)].concat();
        let mut other = letters[..65_535].to_vec();
        other[65_534] = b'K';
        for asked in [&letters[..65_534], &letters, &other, &letters[..0]] {
            answers += drops(mend, version, (&id, asked), &id);
        }
    }
    answers
}

pub(super) const MOST: usize = 65_535;

/// A key section of so many keys, with the ID "a" where this says so, otherwise
/// with "b".
pub(super) fn many(count: usize, is_a: impl Fn(usize) -> bool) -> Vec<u8> {
    let (a, b) = (hex("000161 0000 0000"), hex("000162 000131 0002BBBB"));
    let mut bytes = (count as u16).to_be_bytes().to_vec();
    for at in 0..count {
        bytes.extend(if is_a(at) { &a } else { &b });
    }
    bytes
}

/// Counts of which one more key changes one byte, or both.
const COUNTS: [usize; 9] = [1, 2, 254, 255, 256, 257, 511, 65_279, 65_280];

/// A key is added to so many, and dropped again; then all but it are.
pub fn counts(mend: &impl Mend) -> u64 {
    let b = [&b"b"[..], b"1", &[0xBB, 0xBB]];
    let mut answers = 0;
    for count in COUNTS {
        let fewer = many(count, |_| true);
        let more = many(count + 1, |at| at != count);
        for version in [1, 2] {
            answers += adds(mend, version, (&fewer, b), &more);
            answers += drops(mend, version, (&more, b"b"), &fewer);
            answers += drops(mend, version, (&more, b"a"), &many(1, |_| false));
        }
    }
    answers
}

/// Of as many keys as there can be: every second is dropped, none, all but one,
/// or every one.
pub fn most_keys_dropped(mend: &impl Mend) -> u64 {
    let by_turns = many(MOST, |at| at % 2 == 0);
    let every = many(MOST, |_| true);
    let one = many(1, |_| false);
    let mut answers = 0;
    for version in [1, 2] {
        answers += drops(mend, version, (&by_turns, b"a"), &many(32_767, |_| false));
        answers += drops(mend, version, (&by_turns, b"b"), &many(32_768, |_| true));
        answers += drops(mend, version, (&by_turns, b"c"), &by_turns);
        for kept in [0, 300, MOST - 1] {
            let others = many(MOST, |at| at != kept);
            answers += drops(mend, version, (&others, b"a"), &one);
        }
        let all = |draft: &mut [u8]| mend.drop_keys(draft, b"a");
        answers += keeps(version, &every, (40, 0), all);
    }
    answers
}

/// To as many keys none is added, to one fewer it is.
pub fn most_keys_added(mend: &impl Mend) -> u64 {
    let [a, b, bad] = [
        [&b"a"[..], b"", b""],
        [b"b", b"1", &[0xBB, 0xBB]],
        [&[0xFF], b"", b""],
    ];
    let all = many(MOST, |at| at != MOST - 1);
    let by_turns = many(MOST, |at| at % 2 == 0);
    let mut answers = 0;
    for version in [1, 2] {
        let fewer = many(MOST - 1, |_| true);
        answers += adds(mend, version, (&fewer, b), &all);
        let fewer = many(MOST - 1, |at| at % 2 == 0);
        answers += adds(mend, version, (&fewer, a), &by_turns);
        for (key, number) in [(a, 27), (b, 27), (bad, 16)] {
            let wanted = (number, 0);
            answers += keeps(version, &all, wanted, |draft| mend.add_key(draft, key));
        }
    }
    answers
}
