//! Reads of numbers, bytes and entries: whole records, at any start.

use compare_leaves::{records, report::compared};
use generator::random::Random;

/// Starts and lengths about which some sum or test could go wrong.
const EDGES: [u64; 12] = [
    (1 << 31) - 1,
    1 << 31,
    (1 << 32) - 5,
    (1 << 32) - 2,
    (1 << 32) - 1,
    1 << 32,
    (1 << 32) + 1,
    (1 << 63) - 1,
    1 << 63,
    u64::MAX - 4,
    u64::MAX - 1,
    u64::MAX,
];

/// Every read at one start; answers how many there were.
fn agree(message: &[u8], start: u64, lengths: &[u32]) -> u64 {
    let len = message.len();
    assert_eq!(
        leaves::read_u8(message, start),
        records::read_u8(message, start),
        "1 byte at {start} of {len}"
    );
    assert_eq!(
        leaves::read_u16(message, start),
        records::read_u16(message, start),
        "2 bytes at {start} of {len}"
    );
    assert_eq!(
        leaves::read_u32(message, start),
        records::read_u32(message, start),
        "4 bytes at {start} of {len}"
    );
    assert_eq!(
        leaves::read_entry(message, start, None),
        records::read_entry(message, start, None),
        "entry at {start} of {len}"
    );
    for &n in lengths {
        assert_eq!(
            leaves::read_bytes(message, start, n),
            records::read_bytes(message, start, n),
            "{n} bytes at {start} of {len}"
        );
    }
    4 + lengths.len() as u64
}

#[test]
fn short_messages_at_every_start() {
    let mut random = Random::new(31);
    let lengths: Vec<u32> = (0..=20)
        .chain([65_535, 65_536, u32::MAX - 1, u32::MAX])
        .collect();
    let mut count = 0;
    for len in 0..=16 {
        for _ in 0..200 {
            let mut message = random.bytes(len);
            // Small first bytes, so that about half of the entries fit.
            message.iter_mut().step_by(2).for_each(|byte| *byte &= 1);
            for start in (0..=len as u64 + 5).chain(EDGES) {
                count += agree(&message, start, &lengths);
            }
        }
    }
    compared(count, "reads of short messages");
}

#[test]
fn random_places() {
    let mut random = Random::new(32);
    let message = random.bytes(200_000);
    let mut count = 0;
    for _ in 0..1_000_000 {
        let kept = random.length(message.len());
        let start = match random.below(8) {
            0 => random.next_u64(),
            1 => random.pick(&EDGES),
            2 => kept as u64 + random.below(3),
            3 => (kept as u64).saturating_sub(random.below(6)),
            _ => random.between(0, kept as u64),
        };
        let n = match random.below(4) {
            0 => random.next_u64() as u32,
            1 => (kept as u64).saturating_sub(start) as u32,
            2 => ((kept as u64).saturating_sub(start) as u32).saturating_add(1),
            _ => random.length(65_535) as u32,
        };
        count += agree(&message[..kept], start, &[n]);
    }
    compared(count, "reads at random places");
}

/// An entry at a random place of a message that ends with it, one or more
/// bytes short of it, or beyond it.
#[test]
fn entries_whole_and_cut() {
    let mut random = Random::new(33);
    let mut noise = random.bytes(210_000);
    let (mut count, mut accepted) = (0, 0);
    for _ in 0..200_000 {
        let len = match random.below(8) {
            0 => 65_535 - random.index(3),
            1 => random.index(65_536),
            _ => random.length(300),
        };
        let start = random.length(70_000);
        noise[start..start + 2].copy_from_slice(&(len as u16).to_be_bytes());
        let end = start + 2 + len;
        let cut = random.index(len + 3);
        for kept in [
            end,
            end - 1,
            end - cut,
            start,
            start + 1,
            start + 2,
            end + 1 + cut,
        ] {
            let message = &noise[..kept];
            let ours = leaves::read_entry(message, start as u64, None);
            assert_eq!(
                ours,
                records::read_entry(message, start as u64, None),
                "entry of {len} bytes at {start} of {kept}"
            );
            accepted += u64::from(ours.refusal == 0);
            count += 1;
        }
    }
    assert!(accepted > 200_000 && accepted < count);
    compared(count, "entries whole and cut");
}

/// Refusal 1 by the message's length. The bytes are never written, so the
/// system lends pages only where a read looks.
#[test]
fn messages_about_four_gigabytes_long() {
    let longest = (1usize << 32) + 2;
    let bytes = vec![0u8; longest];
    let mut count = 0;
    for kept in longest - 6..=longest {
        let message = &bytes[..kept];
        let near = (kept as u64 - 6)..=(kept as u64 + 3);
        for start in (0..4).chain(near).chain(EDGES) {
            count += agree(message, start, &[0, 1, 2, 3, u32::MAX - 1, u32::MAX]);
        }
    }
    compared(count, "reads of messages about 2^32 bytes long");
}
