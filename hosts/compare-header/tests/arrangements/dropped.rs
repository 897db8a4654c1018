//! The keys of two providers dropped in either order: where a key remains after
//! both, the same bytes and the same tail are left; where none does, one of the
//! two is refused by 40 in either order, and what is left depends on which.

use compare_header::answers::Answers;
use compare_header::mends;
use compare_header::numbers::Answer;
use generator::arrangements::{arranged, lists};
use generator::fields::Fields;
use generator::large::plain;
use generator::Key;

/// What is left of a draft's keys after both.
#[derive(Clone, Copy, PartialEq, Eq)]
pub enum Left {
    /// One or more.
    Some,
    /// None: each key had one of the two IDs or the other, and both were there.
    NoneOfBoth,
    /// None: each key had one of the two, and none the other.
    NoneOfOne,
    /// None: each key had the ID that was asked for twice.
    NoneOfSame,
}

/// How often each was met.
#[derive(Default)]
pub struct Met([u64; 4]);

impl Met {
    pub fn count(&mut self, left: Left) {
        self.0[left as usize] += 1;
    }

    /// In the order in which they are listed.
    pub fn all(&self) -> [u64; 4] {
        self.0
    }
}

fn left_by(keys: &[Key], [p, q]: [&[u8]; 2]) -> Left {
    let has = |id: &[u8]| keys.iter().any(|key| key[0] == id);
    let third = keys.iter().any(|key| key[0] != p && key[0] != q);
    match (third, p == q, has(p) && has(q)) {
        (true, ..) => Left::Some,
        (_, true, _) => Left::NoneOfSame,
        (.., true) => Left::NoneOfBoth,
        _ => Left::NoneOfOne,
    }
}

/// A draft, and what stands behind it in its buffer.
#[derive(Clone, Copy)]
pub struct Buffer<'a> {
    pub fields: &'a Fields,
    pub behind: &'a [u8],
}

impl Buffer<'_> {
    /// The buffer without the keys of these IDs, and the draft's tail: up to
    /// where the draft with all keys ended, at `old`, it is 00.
    fn without(&self, gone: &[&[u8]], old: usize) -> (usize, Vec<u8>) {
        let mut shorter = self.fields.clone();
        shorter.keys.retain(|key| !gone.contains(&&key[0][..]));
        let mut buffer = shorter.image().bytes;
        let tail = buffer.len();
        buffer.resize(old.max(tail), 0);
        buffer.extend_from_slice(self.behind);
        (tail, buffer)
    }
}

/// One and then the other: both answers, and the buffer after the second.
fn in_turn(buffer: &[u8], [first, second]: [&[u8]; 2]) -> ([Answer<usize>; 2], Vec<u8>) {
    let (one, after) = mends::drop_keys(buffer, first);
    let (two, after) = mends::drop_keys(&after, second);
    ([one, two], after)
}

/// The numbers that both calls answer in this order, and the IDs that are gone
/// then.
fn wanted<'a>(keys: &[Key], left: Left, ids: [&'a [u8]; 2]) -> ([u32; 2], Vec<&'a [u8]>) {
    match left {
        Left::Some => ([0, 0], ids.to_vec()),
        Left::NoneOfBoth => ([0, 40], vec![ids[0]]),
        Left::NoneOfOne if keys[0][0] == ids[0] => ([40, 0], vec![]),
        Left::NoneOfOne => ([0, 40], vec![]),
        Left::NoneOfSame => ([40, 40], vec![]),
    }
}

/// Four drops, two in each order.
pub fn either_order(answers: &mut Answers, buffer: Buffer, [p, q]: [&[u8]; 2]) -> Left {
    let keys = &buffer.fields.keys;
    let left = left_by(keys, [p, q]);
    let (old, before) = buffer.without(&[], 0);
    let orders = [[p, q], [q, p]].map(|ids| {
        let (answered, after) = in_turn(&before, ids);
        let (numbers, gone) = wanted(keys, left, ids);
        for (answer, number) in answered.iter().zip(numbers) {
            answers.met(answer, number);
        }
        let (tail, wanted) = buffer.without(&gone, old);
        assert!(after == wanted, "{ids:02X?}: the buffer");
        if numbers[0] == 0 {
            let (tail, _) = buffer.without(&ids[..1], old);
            assert_eq!(answered[0], Ok(tail), "{ids:02X?}: the first's keys");
        }
        if numbers[1] == 0 {
            assert_eq!(answered[1], Ok(tail), "{ids:02X?}");
        }
        (answered[1], after)
    });
    match left {
        Left::Some => assert!(orders[0] == orders[1], "in either order"),
        Left::NoneOfBoth => assert!(orders[0].1 != orders[1].1, "the other's keys"),
        _ => assert!(orders[0].1 == before && orders[1].1 == before),
    }
    left
}

/// IDs of keys: none, three that begin one another, and one that isn't ASCII.
const IDS: [&[u8]; 5] = [b"", b"p", b"p1", b"p12", "\u{e9}".as_bytes()];

/// IDs that no key has: other in the last byte or in case, half a character, and
/// one that is no text.
const OTHERS: [&[u8]; 4] = [b"p2", b"P", b"\xC3", b"\xFF"];

/// Keys with these IDs, of which no two are the same; other parts hold what IDs
/// do.
fn keys_of(list: &[usize]) -> Vec<Key> {
    let ids = arranged(&IDS, list);
    let key = |(at, id): (u8, &[u8])| [id.to_vec(), vec![b'p', at], [id, &[0, 1, b'p']].concat()];
    (1..).zip(ids).map(key).collect()
}

/// Fields without keys whose last byte isn't 00 in either version, so that it
/// shows where that is not cleared.
pub fn ends_in_some(version: u32) -> Fields {
    let mut fields = plain(version);
    fields.frame_length = 4_099;
    fields
}

/// Every list of one to four keys, and every two IDs, of which either may be any
/// key's or none's, and both the same.
#[test]
fn every_two() {
    let (mut answers, mut met) = (Answers::default(), Met::default());
    let asked = [&IDS[..], &OTHERS].concat();
    for version in [1, 2] {
        let mut fields = ends_in_some(version);
        if version == 1 {
            fields.pairs = vec![(b"p".to_vec(), b"p1".to_vec())];
        } else {
            fields.form = 1;
        }
        for (nth, list) in lists(IDS.len(), 4).iter().enumerate().skip(1) {
            fields.keys = keys_of(list);
            let buffer = Buffer {
                fields: &fields,
                behind: &[0xF1, 0xF2, 0xF3, 0xF4][..nth % 5],
            };
            for (at, p) in asked.iter().enumerate() {
                for q in &asked[at..] {
                    met.count(either_order(&mut answers, buffer, [p, q]));
                }
            }
        }
    }
    let (lists, twos) = (5 + 25 + 125 + 625, 45);
    // Lists of two IDs are 2, 6 and 14 with both of them, by their length. Of
    // one there is a list of each length, with any of the eight others.
    let none = [10 * (2 + 6 + 14), 4 * (5 * 8), 4 * 5].map(|count| 2 * count);
    let some = 2 * lists * twos - none.iter().sum::<u64>();
    assert_eq!(met.all(), [some, none[0], none[1], none[2]]);
    let refused = 2 * none[0] + 2 * none[1] + 4 * none[2];
    let wanted = [(0, 4 * 2 * lists * twos - refused), (40, refused)];
    answers.assert_are("keys of two IDs dropped in either order", &wanted);
}
