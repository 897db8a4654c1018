//! Equality and order of two parts of one message.

use compare_leaves::report::compared;
use generator::random::Random;
use leaves::Place;
use std::cmp::Ordering;

fn part(message: &[u8], (start, len): Place) -> &[u8] {
    &message[start as usize..(start + len) as usize]
}

/// Both questions, both ways round; answers the order.
fn agree(message: &[u8], a: Place, b: Place) -> Ordering {
    let (x, y) = (part(message, a), part(message, b));
    let order = reference::compare_parts(x, y);
    assert_eq!((order, order.is_eq()), (x.cmp(y), x == y));
    assert_eq!(reference::equal_parts(x, y), x == y);
    assert_eq!(
        leaves::same_parts(message, a, b),
        Some(x == y),
        "{x:02x?} {y:02x?}"
    );
    assert_eq!(
        leaves::same_parts(message, b, a),
        Some(x == y),
        "{y:02x?} {x:02x?}"
    );
    assert_eq!(
        leaves::compare_parts(message, a, b),
        Some(order),
        "{x:02x?} {y:02x?}"
    );
    let back = order.reverse();
    assert_eq!(
        leaves::compare_parts(message, b, a),
        Some(back),
        "{y:02x?} {x:02x?}"
    );
    order
}

/// Bytes whose order a signed comparison would turn round.
const PAIRS: [(u8, u8); 6] = [
    (0, 1),
    (0x7F, 0x80),
    (0, 0xFF),
    (0xFE, 0xFF),
    (0, 0x80),
    (0x61, 0x62),
];

/// Every length up to some blocks, a difference at each offset, and bytes
/// behind it that say the opposite.
#[test]
fn one_difference_at_each_offset() {
    let mut random = Random::new(51);
    let mut count = 0;
    for len in 1..=200usize {
        let (before, between) = (random.index(20), random.index(20));
        let second = before + len + between;
        let mut message = random.bytes(second + len + 5);
        let (a, b) = ((before as u64, len as u64), (second as u64, len as u64));
        message.copy_within(before..before + len, second);
        assert_eq!(agree(&message, a, b), Ordering::Equal);
        count += 1;
        for offset in 0..len {
            let mut damaged = message.clone();
            let (low, high) = random.pick(&PAIRS);
            for behind in offset + 1..len {
                damaged[before + behind] = 0xFF;
                damaged[second + behind] = 0x00;
            }
            damaged[before + offset] = low;
            damaged[second + offset] = high;
            assert_eq!(agree(&damaged, a, b), Ordering::Less);
            message[before + offset] ^= 0x80;
            agree(&message, a, b);
            message[before + offset] ^= 0x80;
            count += 2;
        }
    }
    compared(count, "parts with one difference");
}

/// A part against each beginning of the same bytes, the empty one included.
#[test]
fn beginnings() {
    let mut random = Random::new(52);
    let mut count = 0;
    for len in 0..=200usize {
        let second = len + random.index(20);
        let mut message = random.bytes(second + len);
        message.copy_within(0..len, second);
        for shorter in 0..=len {
            let order = agree(&message, (second as u64, shorter as u64), (0, len as u64));
            assert_eq!(order, shorter.cmp(&len));
            count += 1;
        }
    }
    compared(count, "parts against their beginnings");
}

/// Parts that overlap, or are one and the same, of few different bytes.
#[test]
fn random_places() {
    let mut random = Random::new(53);
    let mut seen = [0u64; 3];
    for _ in 0..300 {
        let alphabet = 1 + random.below(3);
        let len = random.index(300);
        let message: Vec<u8> = (0..len)
            .map(|_| {
                if random.one_in(40) {
                    random.byte()
                } else {
                    random.below(alphabet) as u8
                }
            })
            .collect();
        for _ in 0..5_000 {
            let mut place = || {
                let start = random.index(len + 1);
                (start as u64, random.index(len - start + 1) as u64)
            };
            let (a, mut b) = (place(), place());
            if a.1 <= len as u64 - b.0 && random.below(2) == 0 {
                b.1 = a.1;
            }
            seen[(agree(&message, a, b) as i8 + 1) as usize] += 1;
        }
    }
    assert!(seen.iter().all(|&count| count > 10_000), "{seen:?}");
    compared(seen.iter().sum(), "parts at random places");
}

#[test]
fn long_parts() {
    let mut random = Random::new(54);
    let mut count = 0;
    for len in [1_000usize, 1_024, 60_000, 65_535] {
        let mut message = random.bytes(2 * len);
        message.copy_within(0..len, len);
        let (a, b) = ((0, len as u64), (len as u64, len as u64));
        agree(&message, a, b);
        for _ in 0..500 {
            let offset = random.index(2 * len);
            message[offset] ^= 1 << random.below(8);
            assert_ne!(agree(&message, a, b), Ordering::Equal);
            message[offset] = message[(offset + len) % (2 * len)];
            count += 1;
        }
    }
    compared(count, "long parts");
}

#[test]
fn places_outside() {
    let mut random = Random::new(55);
    let edges = [0, 1, 31, 32, 33, 1 << 32, 1 << 63, u64::MAX - 1, u64::MAX];
    let (mut count, mut inside) = (0, 0);
    for _ in 0..1_000_000 {
        let len = random.below(40);
        let message = vec![7; len as usize];
        let mut number = || match random.below(8) {
            0 => random.pick(&edges),
            1 => random.next_u64(),
            _ => random.below(len / 2 + 2),
        };
        let (a, b) = ((number(), number()), (number(), number()));
        let lies = |(start, n): Place| u128::from(start) + u128::from(n) <= u128::from(len);
        if lies(a) && lies(b) {
            agree(&message, a, b);
            inside += 1;
        } else {
            assert_eq!(
                leaves::same_parts(&message, a, b),
                None,
                "{a:?} {b:?} of {len}"
            );
            assert_eq!(
                leaves::compare_parts(&message, a, b),
                None,
                "{a:?} {b:?} of {len}"
            );
        }
        count += 1;
    }
    assert!(inside > 100_000 && inside < count);
    compared(count, "parts within and outside");
}
