//! Keys dropped in either order from generated drafts, and from drafts with
//! thousands of keys.

use crate::dropped::{either_order, ends_in_some, Buffer, Left, Met};
use compare_header::answers::Answers;
use compare_header::scale::seeds;
use compare_header::{compared, mends};
use generator::drafts::{behind, sound_fields};
use generator::fields::{near, Fields};
use generator::mending_cases::asked;
use generator::random::Random;
use generator::Key;

/// Any two IDs: often two that keys have, one that begins the other, or one that
/// is asked for twice.
fn two(random: &mut Random, keys: &[Key]) -> [Vec<u8>; 2] {
    let p = asked(random, keys);
    let q = match random.below(8) {
        0 => p.clone(),
        // Of the longest there is none that is longer.
        1 if p.len() < 1_000 => near(random, &p),
        2..=4 => keys[random.index(keys.len())][0].clone(),
        _ => asked(random, keys),
    };
    [p, q]
}

#[test]
fn generated() {
    let (mut answers, mut met, mut count) = (Answers::default(), Met::default(), 0);
    for seed in seeds(25_000) {
        let random = &mut Random::new(seed ^ 0x0341);
        let fields = sound_fields(random);
        let room = random.length(40);
        let buffer = Buffer {
            fields: &fields,
            behind: &behind(random, room),
        };
        let [p, q] = two(random, &fields.keys);
        met.count(either_order(&mut answers, buffer, [&p, &q]));
        count += 1;
    }
    let [some, both, one, same] = met.all();
    assert!(some > count / 2, "{some} of {count}");
    for none in [both, one, same] {
        assert!(none > count / 100, "{none} of {count}");
    }
    let refused = 2 * both + 2 * one + 4 * same;
    let wanted = [(0, 4 * count - refused), (40, refused)];
    answers.assert_are("generated drafts, by keys of two IDs", &wanted);
}

/// Drops each ID in turn; answers the last tail and the buffer.
fn drop_all(buffer: &[u8], ids: &[Vec<u8>]) -> (usize, Vec<u8>) {
    let mut left = (0, buffer.to_vec());
    for id in ids {
        let (answer, after) = mends::drop_keys(&left.1, id);
        left = (answer.expect("a key remains"), after);
    }
    left
}

/// Any number of IDs in two orders, some of them again: what is left is the
/// draft with none of them, if a key remains after all.
#[test]
fn several() {
    let (mut count, mut dropped) = (0, 0);
    for seed in seeds(8_000) {
        let random = &mut Random::new(seed ^ 0x0342);
        let mut fields = sound_fields(random);
        let stays = fields.keys[random.index(fields.keys.len())][0].clone();
        let mut ids: Vec<Vec<u8>> = (0..2 + random.index(5))
            .map(|_| asked(random, &fields.keys))
            .filter(|id| *id != stays)
            .collect();
        ids.push([&stays[..], b"0"].concat());
        let draft = fields.image().bytes;
        let behind = behind(random, 9);
        let before = [&draft[..], &behind].concat();
        let held = fields.keys.len();
        fields.keys.retain(|key| !ids.contains(&key[0]));
        let mut wanted = fields.image().bytes;
        let tail = wanted.len();
        wanted.resize(draft.len(), 0);
        wanted.extend(behind);
        for _ in 0..2 {
            random.shuffle(&mut ids);
            assert!(drop_all(&before, &ids) == (tail, wanted.clone()), "{seed}");
            count += ids.len() as u64;
            ids.push(ids[0].clone());
        }
        dropped += u64::from(fields.keys.len() < held);
    }
    assert!(dropped > seeds(8_000).end / 3, "{dropped}");
    compared(count, "keys of several IDs dropped in any order");
}

/// The IDs of three stations, each of which begins the next, and another.
const STATIONS: [&[u8]; 4] = [b"station-1", b"station-10", b"station-100", b"station-2"];

/// So many keys of the first stations, mixed; each of them has some.
fn mixed(random: &mut Random, version: u32, count: usize, stations: usize) -> Fields {
    let mut fields = ends_in_some(version);
    let key = |at: usize| {
        let info = at.to_be_bytes()[6..].to_vec();
        let ciphertext = random.length(12);
        [
            STATIONS[at % stations].to_vec(),
            info,
            random.bytes(ciphertext),
        ]
    };
    fields.keys = (0..count).map(key).collect();
    random.shuffle(&mut fields.keys);
    fields
}

/// Every two of the four stations, where three, two or one have keys.
#[test]
fn of_many_keys() {
    let mut random = Random::new(343);
    let (mut answers, mut met) = (Answers::default(), Met::default());
    let drafts = [(1, 2_000, 1), (2, 2_000, 2), (1, 2_000, 3), (2, 65_535, 3)];
    for (version, count, stations) in drafts {
        let fields = mixed(&mut random, version, count, stations);
        let buffer = Buffer {
            fields: &fields,
            behind: &behind(&mut random, 20),
        };
        for (at, p) in STATIONS.iter().enumerate() {
            for q in &STATIONS[at..] {
                let left = either_order(&mut answers, buffer, [p, q]);
                let none = STATIONS[..stations].iter().all(|id| id == p || id == q);
                assert_eq!(none, left != Left::Some);
                met.count(left);
            }
        }
    }
    // Two of them leave none where two have keys, or one.
    assert_eq!(met.all(), [4 * 10 - 5, 1, 3, 1]);
    let refused = 2 + 2 * 3 + 4;
    let wanted = [(0, 4 * 4 * 10 - refused), (40, refused)];
    answers.assert_are("stations dropped from thousands of keys", &wanted);
}
