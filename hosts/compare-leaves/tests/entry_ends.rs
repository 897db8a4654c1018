//! Entries read with an end: whole records, at any start and with any end.

use compare_leaves::{records, report::compared};
use generator::random::Random;

/// Ends about which some sum or test could go wrong.
const EDGES: [u64; 11] = [
    0,
    1,
    (1 << 31) - 1,
    1 << 31,
    (1 << 32) - 1,
    1 << 32,
    (1 << 32) + 1,
    (1 << 63) - 1,
    1 << 63,
    u64::MAX - 1,
    u64::MAX,
];

/// How often each answer came about.
#[derive(Default)]
struct Met {
    accepted: u64,
    short: u64,
    past: u64,
    too_large: u64,
}

impl Met {
    /// One read on both sides.
    fn agree(&mut self, message: &[u8], start: u64, end: u64) {
        let ours = leaves::read_entry(message, start, Some(end));
        let what = || format!("entry at {start} of {}, to {end}", message.len());
        assert_eq!(
            ours,
            records::read_entry(message, start, Some(end)),
            "{}",
            what()
        );
        match ours.refusal {
            0 => self.accepted += 1,
            1 => self.too_large += 1,
            2 => self.short += 1,
            32 => self.past += 1,
            number => panic!("{}: {number}", what()),
        }
    }

    /// None of these came about less than `least` times.
    fn report(&self, least: u64, what: &str) {
        let Met {
            accepted,
            short,
            past,
            too_large,
        } = *self;
        let fewest = accepted.min(short).min(past).min(too_large);
        assert!(
            fewest >= least,
            "{what}: {accepted}, {short}, {past}, {too_large}"
        );
        compared(accepted + short + past + too_large, what);
    }
}

/// A byte before, at and behind a place.
fn about(place: u64) -> [u64; 3] {
    [place.saturating_sub(1), place, place.saturating_add(1)]
}

#[test]
fn short_messages_at_every_start_and_end() {
    let mut random = Random::new(34);
    let mut met = Met::default();
    for len in 0..=12 {
        for _ in 0..60 {
            let mut message = random.bytes(len);
            // Small lengths, so that about half of the entries fit.
            message
                .iter_mut()
                .for_each(|byte| *byte = random.pick(&[0, 0, 1, 2, *byte]));
            for start in (0..=len as u64 + 3).chain(EDGES) {
                for end in (0..=len as u64 + 5).chain(EDGES) {
                    met.agree(&message, start, end);
                }
            }
        }
    }
    met.report(10_000, "entries of short messages to every end");
}

/// An entry in a message that ends in its length, in its bytes or behind it,
/// and ends about those of its length, of its bytes and of the message.
#[test]
fn ends_about_each_part() {
    let mut random = Random::new(35);
    let mut noise = random.bytes(210_000);
    let mut met = Met::default();
    for _ in 0..20_000 {
        let len = match random.below(8) {
            0 => 65_535 - random.index(3),
            1 => random.index(65_536),
            _ => random.length(300),
        };
        let start = random.length(70_000);
        noise[start..start + 2].copy_from_slice(&(len as u16).to_be_bytes());
        let end = start + 2 + len;
        for kept in [start, start + 1, start + 2, end - 1, end, end + 9] {
            let places = [start, start + 2, end, kept].map(|place| about(place as u64));
            for to in places.into_iter().flatten().chain(EDGES) {
                met.agree(&noise[..kept], start as u64, to);
            }
            // Starts that are refused by 1 whatever the end.
            met.agree(
                &noise[..kept],
                (1 << 32) + start as u64,
                random.pick(&EDGES),
            );
        }
    }
    met.report(100_000, "entries to ends about each part");
}

/// Refusal 1 by the message's length comes before 32, and ends are not cut to
/// 32 bits where the message nearly fills them.
#[test]
fn messages_about_four_gigabytes_long() {
    let longest = (1usize << 32) + 2;
    let bytes = vec![0u8; longest];
    let mut met = Met::default();
    for kept in longest - 6..=longest {
        for start in (kept as u64 - 5)..=(kept as u64 + 1) {
            for end in about(start)
                .into_iter()
                .chain(about(start + 2))
                .chain(EDGES)
            {
                met.agree(&bytes[..kept], start, end);
            }
        }
    }
    met.report(20, "entries to ends about 2^32");
}

/// Without an end the number in its place doesn't matter; with one, the flag
/// may be any number but 0.
#[test]
fn the_flag_of_an_end() {
    let message = [0, 2, 7, 7, 0, 9];
    let mut count = 0;
    for start in 0..=message.len() as u64 {
        for end in (0..=8).chain(EDGES) {
            let without = records::read_entry(&message, start, None);
            assert_eq!(leaves::read_entry_flagged(&message, start, 0, end), without);
            let within = records::read_entry(&message, start, Some(end));
            for flag in [1, 2, 256, 1 << 16, 1 << 31, u32::MAX] {
                let ours = leaves::read_entry_flagged(&message, start, flag, end);
                assert_eq!(ours, within, "at {start}, to {end}, flag {flag}");
            }
            count += 7;
        }
    }
    compared(count, "flags of an entry's end");
}
