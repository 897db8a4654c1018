//! A draft that was mended reads as the same fields but for the keys that were
//! dropped or added, and what was added can be dropped again.

use bafirolen::{Mode, Which};
use compare_header::numbers::{number, Answer};
use compare_header::scale::seeds;
use compare_header::{compared, expected, mends, request};
use generator::drafts::{behind, sound_fields};
use generator::fields::{near, Fields};
use generator::random::Random;
use generator::texts::text;
use generator::Key;

/// The tolerant reader of either version gives these fields, and this tail.
fn reads_as(seed: u64, buffer: &[u8], fields: &Fields, tail: usize) {
    let asked = request(Which::Either, Mode::Tolerant, None);
    expected::reads_as(seed, buffer, asked, fields, tail);
}

/// A draft with so many bytes behind it.
fn buffer(random: &mut Random, fields: &Fields, count: usize) -> Vec<u8> {
    let mut buffer = fields.image().bytes;
    buffer.extend(behind(random, count));
    buffer
}

fn has(fields: &Fields, id: &[u8]) -> bool {
    fields.keys.iter().any(|key| key[0] == id)
}

/// An ID that no key of the draft has, though it may begin one.
fn absent(random: &mut Random, fields: &Fields) -> Vec<u8> {
    let mut id = fields.keys[random.index(fields.keys.len())][0].clone();
    // One that is as long as can be leaves no room for another near it.
    if id.len() > 1_000 {
        id = text(random, 30);
    }
    while has(fields, &id) {
        id = match random.one_in(3) {
            true => text(random, 30),
            false => near(random, &id),
        };
    }
    id
}

fn add(buffer: &[u8], key: &Key) -> (Answer<usize>, Vec<u8>) {
    mends::add_key(buffer, key.each_ref().map(|part| &part[..]))
}

/// Each ID of a draft in turn: the others' keys are read, in their order, and no
/// key has that ID any more, so that dropping it again changes nothing.
#[test]
fn dropped() {
    let (mut count, mut none) = (0, 0);
    for seed in seeds(12_000) {
        let random = &mut Random::new(seed ^ 0xD409);
        let fields = sound_fields(random);
        let room = random.length(30);
        let buffer = buffer(random, &fields, room);
        let tail = buffer.len() - room;
        let mut ids: Vec<&Vec<u8>> = fields.keys.iter().map(|key| &key[0]).collect();
        ids.sort();
        ids.dedup();
        for id in ids {
            let (answer, after) = mends::drop_keys(&buffer, id);
            count += 1;
            let mut left = fields.clone();
            left.keys.retain(|key| key[0] != *id);
            if left.keys.is_empty() {
                assert_eq!(number(&answer), 40, "seed {seed}");
                none += 1;
                continue;
            }
            let new_tail = answer.unwrap_or_else(|refusal| panic!("seed {seed}: {refusal}"));
            reads_as(seed, &after, &left, new_tail);
            assert!(after[new_tail..tail].iter().all(|&byte| byte == 0));
            assert!(after[tail..] == buffer[tail..], "seed {seed}");
            let again = mends::drop_keys(&after, id);
            assert!(again == (Ok(new_tail), after), "seed {seed}: again");
            count += 1;
        }
    }
    assert!(none > 0 && none < count / 2, "{none} of {count}");
    compared(count, "drafts that are read without the keys dropped");
}

/// An ID that isn't there changes nothing. A key added with it is read behind
/// the others, and dropped again it leaves the draft as it was, 00 up to the
/// longer one's end, and the bytes past that.
#[test]
fn added_then_dropped() {
    let mut count = 0;
    for seed in seeds(40_000) {
        let random = &mut Random::new(seed ^ 0xADD5);
        let mut fields = sound_fields(random);
        let (info, ciphertext) = (random.length(40), random.length(200));
        let id = absent(random, &fields);
        let key = [id.clone(), random.bytes(info), random.bytes(ciphertext)];
        let taken: usize = key.iter().map(|part| 2 + part.len()).sum();
        let room = taken + random.length(30);
        let before = buffer(random, &fields, room);
        let tail = before.len() - room;
        reads_as(seed, &before, &fields, tail);
        let same = mends::drop_keys(&before, &id);
        assert!(same.0 == Ok(tail) && same.1 == before, "seed {seed}");

        let (answer, longer) = add(&before, &key);
        assert_eq!(answer, Ok(tail + taken), "seed {seed}");
        fields.keys.push(key);
        reads_as(seed, &longer, &fields, tail + taken);
        assert!(longer[tail + taken..] == before[tail + taken..]);

        let (answer, after) = mends::drop_keys(&longer, &id);
        assert_eq!(answer, Ok(tail), "seed {seed}");
        let mut wanted = before;
        wanted[tail..tail + taken].fill(0);
        assert!(after == wanted, "seed {seed}: the first draft");
        count += 3;
    }
    compared(count, "keys added and dropped again");
}

/// The last key, if no other has its ID, is dropped and added again: nothing
/// has changed, however little room there is behind the draft.
#[test]
fn dropped_then_added() {
    let mut count = 0;
    for seed in seeds(30_000) {
        let random = &mut Random::new(seed ^ 0xD5A5);
        let mut fields = sound_fields(random);
        let id = absent(random, &fields);
        let room = random.length(30);
        let ciphertext = random.length(100);
        let key = [id.clone(), Vec::new(), random.bytes(ciphertext)];
        fields.keys.push(key.clone());
        let before = buffer(random, &fields, room);
        let (answer, shorter) = mends::drop_keys(&before, &id);
        let taken = 6 + id.len() + ciphertext;
        assert_eq!(answer, Ok(before.len() - room - taken), "seed {seed}");
        let (answer, after) = add(&shorter, &key);
        assert_eq!(answer, Ok(before.len() - room), "seed {seed}");
        assert!(after == before, "seed {seed}");
        count += 2;
    }
    compared(count, "keys dropped and added again");
}
