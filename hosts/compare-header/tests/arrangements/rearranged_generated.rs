//! Generated lists of pairs rearranged, and lists as long as they can be.

use crate::rearranged::{only, rearrange, ANSWERS};
use crate::section;
use compare_header::answers::Answers;
use compare_header::scale::seeds;
use generator::fields::{fields, front, Fields};
use generator::image::{only_authenticated, pairs_length};
use generator::large::plain;
use generator::many::{pairs, Order, MOST, ORDERS};
use generator::random::Random;
use generator::section_cases::asked;
use generator::sections::stretch;
use generator::{Key, Pair};

/// Keys to be required: some of the pairs', ones near to them, and others.
fn required(random: &mut Random, pairs: &[Pair]) -> Vec<Vec<u8>> {
    let share = random.pick(&[1, 2, 2, 9]);
    let some = pairs.iter().filter(|_| random.one_in(share));
    let mut keys: Vec<Vec<u8>> = some.map(|pair| pair.0.clone()).collect();
    for _ in 0..random.length(4) {
        keys.push(asked(random, pairs).0);
    }
    keys
}

/// The same keys in another order, some of them again.
fn again<'a>(random: &mut Random, keys: &'a [Vec<u8>]) -> Vec<&'a [u8]> {
    let mut again: Vec<&[u8]> = keys.iter().map(|key| &key[..]).collect();
    for key in keys.iter().filter(|_| random.one_in(3)) {
        again.push(key);
    }
    random.shuffle(&mut again);
    again
}

/// What is only authenticated of the first list and of the other, each as a
/// section and in a body; answers whether that is anything.
fn only_of(random: &mut Random, answers: &mut Answers, fields: &Fields, pairs: &[Pair]) -> bool {
    let keys = required(random, &fields.pairs);
    let wanted = only_authenticated(&fields.pairs, keys.iter().map(|key| &key[..]));
    let start = front(fields).bytes.len();
    let other = Fields {
        pairs: pairs.to_vec(),
        ..fields.clone()
    };
    for fields in [fields, &other] {
        let (section, body) = (section(&fields.pairs), fields.image().bytes);
        for message in [(&section[..], 0), (&body, start)] {
            let keys = again(random, &keys);
            only(random, answers, message, &keys, &wanted);
        }
    }
    !wanted.is_empty()
}

#[test]
fn generated() {
    let mut answers = Answers::default();
    let (mut count, mut moved, mut some) = (0, 0, 0);
    for seed in seeds(20_000) {
        let random = &mut Random::new(seed ^ 0x0331);
        let fields = fields(random);
        let mut pairs = fields.pairs.clone();
        random.shuffle(&mut pairs);
        rearrange(random, &mut answers, (&fields, &pairs), 0);
        some += u64::from(only_of(random, &mut answers, &fields, &pairs));
        moved += u64::from(pairs != fields.pairs);
        count += 1;
    }
    assert!(moved > count / 4 && some > count / 3, "{moved}, {some}");
    let wanted = [(0, count * (ANSWERS + 4))];
    answers.assert_are("generated lists rearranged", &wanted);
}

/// Lists of 65,533 bytes in several orders, and of one more, which are refused
/// in all of them.
#[test]
fn the_longest() {
    let mut random = Random::new(332);
    let mut answers = Answers::default();
    let key: Key = [b"p".to_vec(), Vec::new(), vec![0xAA]];
    for (count, lengths) in [(1, (3, 0)), (300, (2, 100)), (MOST, (2, 0))] {
        for (total, number) in [(65_533, 0), (65_534, 13)] {
            for order in ORDERS {
                let mut fields = plain(1 + random.below(2) as u32);
                fields.keys = vec![key.clone()];
                fields.pairs = pairs(&mut random, count, lengths, order);
                stretch(&mut random, &mut fields.pairs, total);
                assert_eq!(pairs_length(&fields.pairs), total);
                let mut other = fields.pairs.clone();
                match order {
                    Order::Shuffled => other.sort(),
                    _ => random.shuffle(&mut other),
                }
                rearrange(&mut random, &mut answers, (&fields, &other), number);
                if number == 0 {
                    only_of(&mut random, &mut answers, &fields, &other);
                }
            }
        }
    }
    let lists = 3 * 3;
    let wanted = [(0, lists * (ANSWERS + 4)), (13, lists * ANSWERS)];
    answers.assert_are("lists of about 65,533 bytes rearranged", &wanted);
}
