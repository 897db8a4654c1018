//! Contexts of up to thousands of pairs, in every order of their keys: what
//! keeps the earlier keys may go by their number and their order.

use bafirolen::Mode;
use compare_header::numbers::number;
use compare_header::scale::seeds;
use compare_header::{compared, every, reads, writes};
use generator::image::{section, Form};
use generator::many::{pairs, MOST, ORDERS};
use generator::random::Random;
use generator::tables::lend;
use generator::Pair;

/// Reads, finds the first, the last and none, and writes, the section and what
/// is only authenticated of it; answers how many comparisons there were.
fn agree(random: &mut Random, pairs: &[Pair], wanted: u32) -> u64 {
    let image = section(pairs, Form::Today).bytes;
    let table = vec![3; 4 * pairs.len()];
    let (answer, _) = reads::read_aad_section(&image, 0, Mode::Strict, &table);
    assert_eq!(number(&answer), wanted);
    for key in [&pairs[0].0[..], &pairs[pairs.len() - 1].0, b"none"] {
        let answer = reads::find_value(&image, 0, key);
        assert!(wanted == 0 || number(&answer) == wanted);
    }
    let lent = lend(random, pairs, &[]);
    let out = vec![0; image.len()];
    let (answer, out) = writes::write_aad_section(&lent.text, &lent.pairs, &out);
    assert_eq!(number(&answer), wanted);
    assert!(wanted != 0 || out == image);
    assert_eq!(number(&every::all_required(random, pairs)), wanted);
    6
}

/// As many two-byte keys as a section takes, and then one of them again: the
/// first, the last, or one between.
#[test]
fn two_byte_keys() {
    let mut random = Random::new(91);
    let mut count = 0;
    for order in ORDERS {
        let mut pairs = pairs(&mut random, MOST, (2, 0), order);
        count += agree(&mut random, &pairs, 0);
        for again in [0, 1, MOST / 2, MOST - 2, MOST - 1] {
            pairs.push((pairs[again].0.clone(), Vec::new()));
            count += agree(&mut random, &pairs, 12);
            pairs.pop();
        }
    }
    compared(count, "sections and finds of 10,900 pairs");
}

/// Numbers of pairs around powers of two; then one key repeated, as the last
/// and not as the last.
#[test]
fn every_size() {
    let mut random = Random::new(92);
    let mut count = 0;
    let sizes = (1..=140).chain([255, 256, 257, 511, 512, 513, 1_023, 1_024, 1_025]);
    for size in sizes {
        for order in ORDERS {
            let lengths = random.pick(&[(2, 0), (2, 9), (3, 1), (20, 0), (40, 3)]);
            let mut pairs = pairs(&mut random, size, lengths, order);
            count += agree(&mut random, &pairs, 0);
            let again = pairs[random.index(size)].0.clone();
            pairs.push((again, Vec::new()));
            count += agree(&mut random, &pairs, 12);
            // What comes behind the second isn't looked at.
            pairs.push((vec![0xFF], Vec::new()));
            count += agree(&mut random, &pairs, 12);
        }
    }
    compared(count, "sections and finds of up to 1,025 pairs");
}

/// Any number of pairs with keys of any lengths, some of which begin others,
/// and a key repeated anywhere.
#[test]
fn repeated_anywhere() {
    let mut random = Random::new(93);
    let mut count = 0;
    for _ in seeds(1_500) {
        let size = 1 + random.length(1_500);
        let lengths = random.pick(&[(2, 0), (2, 9), (3, 1), (20, 0)]);
        let order = random.pick(&ORDERS);
        let mut pairs = pairs(&mut random, size, lengths, order);
        // Cut keys may be equal by now; the separate implementation knows.
        for (key, _) in &mut pairs {
            if random.one_in(20) {
                key.truncate(random.index(key.len() + 1));
            }
        }
        let first = random.index(size);
        let again = (pairs[first].0.clone(), Vec::new());
        pairs.insert(first + 1 + random.index(size - first), again);
        count += agree(&mut random, &pairs, 12);
    }
    compared(count, "sections and finds with a key repeated anywhere");
}

/// A writer's table can name more pairs than any section holds: as many as
/// can be counted are looked at before their bytes are.
#[test]
fn pairs_that_no_section_holds() {
    let mut random = Random::new(94);
    let mut count = 0;
    for size in [10_922, 10_923, 16_383, 16_384, 16_385, 65_534, 65_535] {
        for order in ORDERS {
            let mut pairs = pairs(&mut random, size, (3, 0), order);
            for wanted in [13, 12, 10] {
                match wanted {
                    12 => pairs[size - 1].0 = pairs[random.index(size - 1)].0.clone(),
                    10 => pairs[size / 2].0 = vec![0x80],
                    _ => {}
                }
                let lent = lend(&mut random, &pairs, &[]);
                let (answer, _) = writes::write_aad_section(&lent.text, &lent.pairs, &[0; 9]);
                assert_eq!(number(&answer), wanted, "{size} {order:?}");
                count += 1;
            }
        }
    }
    let (answer, _) = writes::write_aad_section(&[], &vec![0; 4 * 65_536], &[0; 9]);
    assert_eq!(number(&answer), 27);
    compared(count + 1, "writes of pairs that no section holds");
}
