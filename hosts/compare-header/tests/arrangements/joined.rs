//! Two lists of pairs joined: if the joined list is accepted, so is each of the
//! two, and its entries are those of the first and then those of the second.

use crate::{entries, pairs_of, section, write_section};
use compare_header::answers::Answers;
use compare_header::scale::seeds;
use generator::arrangements::choices;
use generator::fields;
use generator::random::Random;
use generator::sections::duplicate;
use generator::tables::lend;
use generator::texts::{bad_text, text};
use generator::Pair;

/// The tables of both lists, in one text: laid out together, or each by itself
/// and the second's text put behind the first's.
fn lend_two(random: &mut Random, lists: [&[Pair]; 2]) -> (Vec<u8>, [Vec<u32>; 2]) {
    if random.one_in(2) {
        let lent = lend(random, &lists.concat(), &[]);
        let (first, second) = lent.pairs.split_at(4 * lists[0].len());
        return (lent.text, [first.to_vec(), second.to_vec()]);
    }
    let [first, mut second] = lists.map(|list| lend(random, list, &[]));
    let starts = second.pairs.iter_mut().step_by(2);
    starts.for_each(|start| *start += first.text.len() as u32);
    let text = [first.text, second.text].concat();
    (text, [first.pairs, second.pairs])
}

/// Each list alone and both joined, which answer these three numbers.
pub fn join(random: &mut Random, answers: &mut Answers, lists: [&[Pair]; 2], wanted: [u32; 3]) {
    let (text, [first, second]) = lend_two(random, lists);
    let joined = [&first[..], &second].concat();
    let written = [&first, &second, &joined].map(|table| write_section(&text, table));
    for ((answer, _), wanted) in written.iter().zip(wanted) {
        answers.met(answer, wanted);
    }
    if wanted[2] > 0 {
        return;
    }
    assert_eq!(wanted, [0; 3], "a part of what is accepted is accepted");
    let [first, second, joined] = written.map(|(_, section)| section);
    assert!(joined == section(&lists.concat()), "the joined section");
    // Of none the section ends before its count.
    let behind = |section: &[u8]| section.get(4..).unwrap_or_default().to_vec();
    let [first, second, joined] = [first, second, joined].map(|section| behind(&section));
    assert!(first == entries(lists[0]), "the first list's entries");
    assert!(second == entries(lists[1]), "the second list's entries");
    assert!(joined == [first, second].concat(), "the joined entries");
}

/// Up to five pairs in every order, split everywhere, before the first and
/// behind the last included.
#[test]
fn every_split() {
    let mut random = Random::new(301);
    let mut answers = Answers::default();
    let mut splits = 0;
    for choice in choices(5, 5) {
        let pairs = pairs_of(&choice);
        for at in 0..=pairs.len() {
            let (first, second) = pairs.split_at(at);
            join(&mut random, &mut answers, [first, second], [0; 3]);
            splits += 1;
        }
    }
    assert_eq!(splits, 1 + 5 * 2 + 20 * 3 + 60 * 4 + 120 * 5 + 120 * 6);
    answers.assert_are("splits of up to five pairs", &[(0, 3 * splits)]);
}

/// Every two lists of up to three of five pairs. Each alone is accepted; joined
/// they are refused where they have a key in common, whatever its values.
#[test]
fn every_two() {
    let mut random = Random::new(302);
    let mut answers = Answers::default();
    let lists = choices(5, 3);
    for first in &lists {
        for second in &lists {
            let common = first.iter().any(|at| second.contains(at));
            let mut pairs = [first, second].map(|choice| pairs_of(choice));
            if random.one_in(2) {
                pairs[1].iter_mut().for_each(|pair| pair.1.push(b'2'));
            }
            let wanted = [0, 0, if common { 12 } else { 0 }];
            let pairs = pairs.each_ref().map(|pairs| &pairs[..]);
            join(&mut random, &mut answers, pairs, wanted);
        }
    }
    let two = 86 * 86;
    let apart = 86 + 5 * (1 + 4 + 12 + 24) + 20 * (1 + 3 + 6 + 6) + 60 * (1 + 2 + 2);
    let wanted = [(0, 2 * two + apart), (12, two - apart)];
    answers.assert_are("two lists of up to three pairs", &wanted);
}

/// What a list can be refused by, 0 where it is sound.
const FAULTS: [u32; 5] = [0, 10, 11, 12, 27];

/// The list, so that it is refused by this number.
fn spoiled(random: &mut Random, mut pairs: Vec<Pair>, number: u32) -> Vec<Pair> {
    let at = random.index(pairs.len());
    match number {
        10 => pairs[at].0 = bad_text(random),
        11 => pairs[at].1 = bad_text(random),
        12 => duplicate(random, &mut pairs),
        27 => pairs[at].1 = vec![b'v'; 65_536],
        _ => {}
    }
    pairs
}

/// A fault in the first list, in the second or in each: joined, the first fault
/// of all decides, but that a part that is too long is told before any other.
#[test]
fn with_a_fault() {
    let mut random = Random::new(303);
    let mut answers = Answers::default();
    for (nth, choice) in choices(5, 3).iter().enumerate().skip(1 + 5) {
        let (first, second) = choice.split_at(1 + nth % (choice.len() - 1));
        for alone in FAULTS.iter().flat_map(|&a| FAULTS.map(|b| [a, b])) {
            let first = spoiled(&mut random, pairs_of(first), alone[0]);
            let second = spoiled(&mut random, pairs_of(second), alone[1]);
            let joined = match alone {
                [27, _] | [_, 27] => 27,
                [0, number] | [number, _] => number,
            };
            let wanted = [alone[0], alone[1], joined];
            join(&mut random, &mut answers, [&first, &second], wanted);
        }
    }
    // Of 25 twos one is sound, nine have a part that is too long, and each
    // other number decides five.
    let (lists, alone) = (20 + 60, 2 * 5);
    let [sound, each, long] = [1, 5, 9].map(|joined| lists * (alone + joined));
    let wanted = [(0, sound), (10, each), (11, each), (12, each), (27, long)];
    answers.assert_are("two lists of which one has a fault", &wanted);
}

/// One generated list that is split, or two of which some have keys in common.
#[test]
fn generated() {
    let (mut answers, mut common, mut count) = (Answers::default(), 0, 0);
    for seed in seeds(25_000) {
        let random = &mut Random::new(seed ^ 0x0301);
        let mut first = fields::pairs(random, 20);
        let mut second = match random.one_in(2) {
            true => first.split_off(random.index(first.len() + 1)),
            false => fields::pairs(random, 20),
        };
        if !first.is_empty() && random.one_in(4) {
            let key = first[random.index(first.len())].0.clone();
            second.retain(|pair| pair.0 != key);
            let at = random.index(second.len() + 1);
            second.insert(at, (key, text(random, 9)));
        }
        let again = |pair: &Pair| first.iter().any(|other| other.0 == pair.0);
        let wanted = match second.iter().any(again) {
            true => [0, 0, 12],
            false => [0; 3],
        };
        join(random, &mut answers, [&first, &second], wanted);
        common += u64::from(wanted[2] == 12);
        count += 1;
    }
    assert!(common > count / 8 && common < count / 2, "{common}");
    let wanted = [(0, 3 * count - common), (12, common)];
    answers.assert_are("generated lists joined", &wanted);
}
