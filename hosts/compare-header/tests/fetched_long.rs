//! Long messages fed by what is wanted and at random: the rounds are as many as
//! there are parts to wait for, however long these are.

use bafirolen::{Mode, Request};
use compare_header::fetched::{Asked, Body, Context, Feeder, Frames, Keys, BY_ONES};
use generator::fields::Fields;
use generator::image::{keys, keys_with, section, Form};
use generator::large::plain;
use generator::many::{pairs, Order, MOST};
use generator::random::Random;
use generator::{frames, Key};

/// Keys of which each part has at least a byte.
fn some_keys(random: &mut Random, count: usize, most: usize) -> Vec<Key> {
    let mut part = || {
        let length = 1 + random.length(most - 1);
        random.bytes(length)
    };
    (0..count).map(|_| [vec![b'p'], part(), part()]).collect()
}

/// A long message, the number that it is answered by, and the rounds that lead
/// there.
fn fed(feeder: &mut Feeder, asked: &impl Asked, message: &[u8], (number, rounds): (u32, u64)) {
    assert!(message.len() > BY_ONES);
    let fed = feeder.feed("long", asked, message, 0);
    assert_eq!((fed.whole.number, fed.rounds), (number, rounds));
}

/// Each body whole; a byte short; with bytes behind it; and refused by its last
/// provider ID, behind which four parts of its key are not waited for, nor what
/// stands behind the keys.
fn bodies_of(feeder: &mut Feeder, mut fields: Fields, beside: u64) {
    let request = Request::default();
    let (pairs, keys) = (4 * fields.pairs.len(), 6 * fields.keys.len());
    let (pairs, keys) = (&vec![7; pairs][..], &vec![7; keys][..]);
    let body = Body {
        request,
        pairs,
        keys,
    };
    let rounds = beside + keys.len() as u64;
    let mut message = fields.image().bytes;
    let end = message.len();
    fed(feeder, &body, &message, (0, rounds));
    fed(feeder, &body, &message[..end - 1], (2, rounds));
    message.extend([0; 100]);
    fed(feeder, &body, &message, (0, rounds));
    let last = fields.keys.len() - 1;
    fields.keys[last][0] = vec![0xFF];
    let behind = if fields.version == 1 { 4 } else { 3 };
    let refused = (16, rounds - behind - 4);
    fed(feeder, &body, &fields.image().bytes, refused);
}

#[test]
fn bodies() {
    let (mut random, mut feeder) = (Random::new(1_291), Feeder::new(1_291));
    for (version, beside) in [(1, 11), (2, 9)] {
        for (pair_count, key_count, most) in [(1, 400, 40), (MOST, 2, 40), (2_000, 5, 65_535)] {
            let mut fields = plain(version);
            fields.pairs = pairs(&mut random, pair_count, (2, 0), Order::Shuffled);
            fields.keys = some_keys(&mut random, key_count, most);
            bodies_of(&mut feeder, fields, beside);
        }
    }
    feeder.seen.report_long("long bodies");
}

/// Each section whole, a byte short, and with its first key again at its end.
#[test]
fn context_sections() {
    let (mut random, mut feeder) = (Random::new(1_292), Feeder::new(1_292));
    for count in [500, 5_000, MOST] {
        let mut pairs = pairs(&mut random, count, (2, 0), Order::Descending);
        let (mode, table) = (Mode::Strict, &vec![7; 4 * count][..]);
        let context = Context { mode, table };
        let mut message = section(&pairs, Form::Today).bytes;
        fed(&mut feeder, &context, &message, (0, 2));
        message.pop();
        fed(&mut feeder, &context, &message, (2, 2));
        pairs.push(pairs[0].clone());
        let message = section(&pairs, Form::Today).bytes;
        fed(&mut feeder, &context, &message, (12, 2));
    }
    feeder.seen.report_long("long context sections");
}

/// Each section whole, a byte short, and with a count that is not reached: the
/// length behind the last key is wanted.
#[test]
fn key_sections() {
    let (mut random, mut feeder) = (Random::new(1_293), Feeder::new(1_293));
    for (count, most) in [(700, 40), (9, 65_535)] {
        let list = some_keys(&mut random, count, most);
        let (max, table) = (None, &vec![7; 6 * count][..]);
        let section = Keys { max, table };
        let rounds = 1 + 6 * count as u64;
        let mut message = keys(&list).bytes;
        fed(&mut feeder, &section, &message, (0, rounds));
        message.pop();
        fed(&mut feeder, &section, &message, (2, rounds));
        let message = keys_with(&list, u16::MAX).bytes;
        let wanted = (2, rounds + 1);
        fed(&mut feeder, &section, &message, wanted);
    }
    feeder.seen.report_long("long key sections");
}

/// Frames whole, a byte short, and with a final number that is one too great.
#[test]
fn runs_of_frames() {
    let (mut random, mut feeder) = (Random::new(1_294), Feeder::new(1_294));
    for (regular, length) in [(1_000, 1), (100, 64), (40, 4_096), (3, 100_000)] {
        let mut list = frames::run(&mut random, length, regular, length);
        let table = &vec![7; 6 * list.len()][..];
        let frame_length = length as u32;
        let frames = Frames {
            frame_length,
            table,
        };
        let rounds = 4 * regular as u64 + 6;
        let mut message = frames::image(&list).bytes;
        fed(&mut feeder, &frames, &message, (0, rounds));
        message.pop();
        fed(&mut feeder, &frames, &message, (2, rounds));
        list[regular].number += 1;
        let message = frames::image(&list).bytes;
        let refused = (34, rounds - 4);
        fed(&mut feeder, &frames, &message, refused);
    }
    feeder.seen.report_long("long frames");
}
