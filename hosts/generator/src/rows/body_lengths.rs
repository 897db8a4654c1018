//! How many bytes a body takes, asked before it is written; and what the
//! writer then answers, whatever output it is lent.

use super::{Codec, Lent};
use crate::large::LONGEST;

pub(super) const TEXT: &[u8] = b"langcyp1a\xAA\xBB\xCC";

/// "lang" and "cy"; "p1", "a" and AA BB CC.
pub(super) const PAIR: &[u32] = &[0, 4, 4, 2];
pub(super) const KEY: &[u32] = &[6, 2, 8, 1, 9, 3];
/// A key of empty parts, of which the lengths alone are written.
const EMPTY_KEY: &[u32] = &[0; 6];

/// A version, the mark of a form, pairs and keys, and the length. Beside pairs
/// and keys it is 34 or 76 today, and 2 more in the old form.
type Row<'a> = (u32, u32, &'a [u32], &'a [u32], u64);

const LENGTHS: [Row; 18] = [
    (1, 0, &[], EMPTY_KEY, 34 + 6),
    (2, 0, &[], EMPTY_KEY, 76 + 6),
    (1, 1, &[], EMPTY_KEY, 36 + 6),
    (2, 1, &[], EMPTY_KEY, 78 + 6),
    (1, 0x100, &[], EMPTY_KEY, 36 + 6),
    (2, u32::MAX, &[], EMPTY_KEY, 78 + 6),
    (1, 0, PAIR, EMPTY_KEY, 34 + 2 + 10 + 6),
    (2, 0, PAIR, EMPTY_KEY, 76 + 2 + 10 + 6),
    (1, 0, &[], KEY, 34 + 12),
    (2, 0, &[], KEY, 76 + 12),
    (1, 1, &[], KEY, 36 + 12),
    (2, 1, &[], KEY, 78 + 12),
    (1, 0, PAIR, KEY, 58),
    (2, 0, PAIR, KEY, 100),
    // Parts of no bytes, also behind the text's last.
    (1, 0, &[0; 4], &[0; 6], 34 + 2 + 4 + 6),
    (
        2,
        0,
        &[12, 0, 12, 0],
        &[12, 0, 12, 0, 12, 0],
        76 + 2 + 4 + 6,
    ),
    // Keys that begin one another, and a key twice.
    (
        1,
        0,
        &[0, 1, 0, 4, 0, 2, 4, 2],
        &[0; 12],
        34 + 2 + 9 + 8 + 12,
    ),
    (2, 1, &[], &[6, 2, 8, 1, 9, 3, 6, 2, 8, 1, 9, 3], 78 + 24),
];

/// What a body of a version is written from, which lacks nothing but a key.
pub(super) fn bare(version: u32, mark: u32) -> Lent<'static> {
    let (numbers, id, suite_data): (_, _, &[u8]) = match version {
        1 => ([1, 0x80, 0x0178, 2, 12, 4096, mark], 16, &[]),
        _ => ([2, 0, 0x0578, 1, 0, 0, mark], 32, &[8; 32]),
    };
    Lent {
        numbers,
        id: &[7; 32][..id],
        suite_data,
        text: TEXT,
        pairs: &[],
        keys: &[],
    }
}

/// The answer to an output of so many bytes, which keeps what isn't written.
fn writes(codec: &impl Codec, lent: Lent, room: u64, wanted: Result<u64, u32>) {
    let mut out = vec![0xEE; room as usize];
    let answer = codec.write_body(lent, &mut out);
    assert_eq!(answer.map_err(|refused| refused.0), wanted, "{lent:?}");
    let rest = &out[answer.unwrap_or(0) as usize..];
    assert!(rest.iter().all(|&byte| byte == 0xEE), "{lent:?}");
}

/// The length, and the writer with a byte less, with just so many and with one
/// more. Answers how many answers these are.
fn takes(codec: &impl Codec, lent: Lent, length: u64) -> u64 {
    assert_eq!(codec.body_len(lent), Ok(length), "{lent:?}");
    writes(codec, lent, length - 1, Err(28));
    writes(codec, lent, length, Ok(length));
    writes(codec, lent, length + 1, Ok(length));
    4
}

/// The refusal, of the length, and of the writer without room and with plenty.
/// Answers how many answers these are.
pub(super) fn refuses(codec: &impl Codec, lent: Lent, number: u32) -> u64 {
    assert_eq!(codec.body_len(lent), Err((number, 0)), "{number}");
    writes(codec, lent, 0, Err(number));
    writes(codec, lent, 400, Err(number));
    3
}

pub fn lengths(codec: &impl Codec) -> u64 {
    let mut compared = 0;
    for (version, mark, pairs, keys, length) in LENGTHS {
        let lent = bare(version, mark);
        compared += takes(
            codec,
            Lent {
                pairs,
                keys,
                ..lent
            },
            length,
        );
    }
    compared
}

/// A fault, by its number, of a body of version 1 with a pair and a key whose
/// text goes on with letters. They stand in the order of tests.
type Fault = (u32, fn(&mut Lent));

const FAULTS: [Fault; 26] = [
    (3, |lent| lent.numbers[0] = 3),
    (3, |lent| lent.numbers[0] = 257),
    (5, |lent| lent.numbers[1] = 0),
    (6, |lent| lent.numbers[2] = 0x0179),
    (6, |lent| lent.numbers[2] = 0x1_0178),
    (7, |lent| lent.numbers[2] = 0x0578),
    (24, |lent| lent.id = &[7; 15]),
    (24, |lent| lent.id = &[7; 32]),
    (26, |lent| lent.pairs = &[0, 4, 4]),
    (26, |lent| lent.pairs = &[u32::MAX, 2, 4, 2]),
    (27, |lent| lent.pairs = &[0, 4, 12, 65_536]),
    (10, |lent| lent.pairs = &[9, 1, 4, 2]),
    (11, |lent| lent.pairs = &[0, 4, 9, 3]),
    (12, |lent| lent.pairs = &[0, 4, 4, 2, 0, 4, 0, 0]),
    (13, |lent| lent.pairs = &[0, 0, 12, 65_530]),
    (33, |lent| lent.numbers[6] = 1),
    (33, |lent| lent.numbers[6] = 0x1_0000),
    (26, |lent| lent.keys = &[6, 2, 8, 1]),
    (27, |lent| lent.keys = &[6, 2, 8, 1, 12, 65_536]),
    (38, |lent| lent.keys = &[]),
    (16, |lent| lent.keys = &[9, 3, 8, 1, 6, 2]),
    (17, |lent| lent.numbers[3] = 0x102),
    (19, |lent| lent.numbers[4] = 0),
    (25, |lent| lent.suite_data = &[8; 32]),
    (20, |lent| lent.numbers[3..6].copy_from_slice(&[1, 12, 1])),
    (20, |lent| lent.numbers[5] = 0),
];

/// Each refusal but 28, alone, and with all others that are tested after it.
pub fn refusals(codec: &impl Codec) -> u64 {
    let mut text = TEXT.to_vec();
    text.resize(70_000, b'z');
    let mut compared = 0;
    for (at, (number, plant)) in FAULTS.into_iter().enumerate() {
        let mut lent = Lent {
            text: &text,
            pairs: PAIR,
            keys: KEY,
            ..bare(1, 0)
        };
        plant(&mut lent);
        compared += refuses(codec, lent, number);
        // Where two want the same part, the one that is tested first has it.
        let later = FAULTS[at..].iter().filter(|later| later.0 != number);
        later.rev().for_each(|(_, plant)| plant(&mut lent));
        plant(&mut lent);
        compared += refuses(codec, lent, number);
    }
    compared
}

/// As many and as long as can be: one text for all parts. Of bodies of 8.6 GB
/// only the length is asked, and 28.
pub fn the_longest(codec: &impl Codec) -> u64 {
    let text = vec![b'a'; LONGEST];
    let whole = LONGEST as u32;
    let key = [0, whole, 0, whole, 0, whole];
    let empty = vec![0; 6 * LONGEST];
    // Every part but the provider ID, which would be tested each time.
    let keys = [0, 0, 0, whole, 0, whole].repeat(LONGEST);
    let mut compared = 0;
    for (version, beside) in [(1, 34), (2, 76)] {
        let text = &text;
        let lent = |pairs, keys| Lent {
            text,
            pairs,
            keys,
            ..bare(version, 0)
        };
        // Pairs of 65,533 bytes, of which 4 are lengths.
        let pairs: &[u32] = &[0, 65_000, 0, 529];
        compared += takes(codec, lent(pairs, EMPTY_KEY), beside + 2 + 65_533 + 6);
        compared += takes(codec, lent(&[], &key), beside + 6 + 3 * 65_535);
        compared += takes(codec, lent(&[], &empty), beside + 6 * 65_535);
        let lent = lent(pairs, &keys);
        let length = beside + 2 + 65_533 + 65_535 * (6 + 2 * 65_535);
        assert_eq!(codec.body_len(lent), Ok(length));
        // What 32 bits keep of that length is no room.
        writes(codec, lent, length & 0xFFFF_FFFF, Err(28));
        compared += 2;
    }
    compared
}
