//! The form of a body: the mark that readers give and the writer follows.

use super::{Asked, Body, Codec, Lent};
use crate::faults::WriteDraft;
use crate::headers::{header_h, header_h_with, header_v2, header_v2_with, samples};
use crate::image::OLD_MARKS;

/// Where the numbers have the mark.
const FORM: usize = 6;

/// The readers that take a version: of either and of one, tolerant and strict.
fn readers(version: u32) -> [(u32, bool); 4] {
    [(0, false), (0, true), (version, false), (version, true)]
}

/// A body that was read, with the message and what was filled of the tables.
struct Read<'a> {
    message: &'a [u8],
    body: Body,
    pairs: Vec<u32>,
    keys: Vec<u32>,
}

impl<'a> Read<'a> {
    fn new(codec: &impl Codec, message: &'a [u8], asked: Asked) -> Result<Read<'a>, u32> {
        let (mut pairs, mut keys) = (vec![7; 8], vec![7; 12]);
        let body = codec
            .read_body(message, asked, &mut pairs, &mut keys)
            .map_err(|refused| refused.0)?;
        pairs.truncate(4 * body.pairs as usize);
        keys.truncate(6 * body.keys as usize);
        Ok(Read {
            message,
            body,
            pairs,
            keys,
        })
    }

    /// The same as lent to a writer, the message as the text, with a mark.
    fn lent(&self, mark: u32) -> Lent<'_> {
        let part = |place: (u64, u64)| &self.message[place.0 as usize..][..place.1 as usize];
        let mut numbers = self.body.numbers;
        numbers[FORM] = mark;
        Lent {
            numbers,
            id: part(self.body.id),
            suite_data: part(self.body.suite_data),
            text: self.message,
            pairs: &self.pairs,
            keys: &self.keys,
        }
    }
}

/// What is written is the image: into an output that just holds it, and into a
/// longer one, whose rest keeps. One that is a byte too short is refused by 28.
/// The length is known before. Answers how many answers these are.
fn is_written(codec: &impl Codec, lent: Lent, image: &[u8]) -> u64 {
    let length = image.len();
    for room in [length, length + 5] {
        let mut out = vec![0xEE; room];
        assert_eq!(codec.write_body(lent, &mut out), Ok(length as u64));
        assert_eq!(out[..length], *image);
        assert!(out[length..].iter().all(|&byte| byte == 0xEE));
    }
    2 + is_too_short(codec, lent, length - 1, length as u64)
}

fn keeps(codec: &impl Codec, lent: Lent, room: usize, number: u32) {
    let mut out = vec![0xEE; room];
    assert_eq!(codec.write_body(lent, &mut out), Err((number, 0)));
    assert!(out.iter().all(|&byte| byte == 0xEE), "{number}");
}

/// Too short an output is refused, and the length is known all the same.
fn is_too_short(codec: &impl Codec, lent: Lent, room: usize, length: u64) -> u64 {
    keeps(codec, lent, room, 28);
    assert_eq!(codec.body_len(lent), Ok(length));
    2
}

/// Every other refusal is that of the length as well.
fn is_refused(codec: &impl Codec, lent: Lent, room: usize, number: u32) -> u64 {
    keeps(codec, lent, room, number);
    assert_eq!(codec.body_len(lent), Err((number, 0)));
    2
}

/// Headers of both versions, with pairs and with both forms of an empty
/// context, at the front of a message and behind other bytes: whichever reader
/// accepts one marks it, and it is written again to the bytes that were read.
pub fn read_then_written(codec: &impl Codec) -> u64 {
    let mut compared = 0;
    for (at, header) in samples().iter().enumerate() {
        let (version, old) = (1 + at as u32 % 2, at >= 4);
        for before in [0, 3] {
            let mut message = vec![0xEE; before];
            message.extend_from_slice(header);
            message.extend(b"rest");
            for (version, strict) in readers(version) {
                let asked = Asked {
                    start: before as u64,
                    ..Asked::new(version, strict)
                };
                let read = Read::new(codec, &message, asked);
                compared += 1;
                if old && strict {
                    assert_eq!(read.err(), Some(21));
                    continue;
                }
                let read = read.unwrap_or_else(|number| panic!("sample {at}: {number}"));
                let mark = read.body.numbers[FORM];
                assert_eq!(mark, u32::from(old), "sample {at}");
                assert_eq!(read.body.tail, (before + header.len()) as u64);
                compared += is_written(codec, read.lent(mark), header);
            }
        }
    }
    compared
}

/// The fields of headers under every mark. 0 is today's and any other number
/// is old, which changes an empty context, and is refused where there is a
/// pair. What is written is read with the mark of its form, and is otherwise
/// what was read before.
pub fn every_mark(codec: &impl Codec) -> u64 {
    let mut compared = 0;
    let pairs = [header_h(), header_v2()];
    let today = [header_h_with("00 00"), header_v2_with("00 00")];
    let old = [header_h_with("00 02 00 00"), header_v2_with("00 02 00 00")];
    for at in 0..2 {
        let tolerant = Asked::new(0, false);
        let full = Read::new(codec, &pairs[at], tolerant).unwrap();
        compared += is_written(codec, full.lent(0), &pairs[at]);
        for empty in [&today[at], &old[at]] {
            let empty = Read::new(codec, empty, tolerant).unwrap();
            compared += is_written(codec, empty.lent(0), &today[at]);
            for mark in OLD_MARKS {
                compared += is_written(codec, empty.lent(mark), &old[at]);
                // A pair of empty parts is a pair.
                let pairs = &[0; 4];
                let lent = Lent {
                    pairs,
                    ..empty.lent(mark)
                };
                compared += is_refused(codec, lent, 200, 33);
            }
        }
        for mark in OLD_MARKS {
            for room in [0, pairs[at].len(), 200] {
                compared += is_refused(codec, full.lent(mark), room, 33);
            }
        }
        compared += read_again(codec, &today[at], &old[at]);
    }
    compared
}

/// The two forms differ by the mark, and by the places behind the context.
fn read_again(codec: &impl Codec, today: &[u8], old: &[u8]) -> u64 {
    let tolerant = Asked::new(0, false);
    let [first, second] = [today, old].map(|message| Read::new(codec, message, tolerant).unwrap());
    let [mut numbers, others] = [first.body.numbers, second.body.numbers];
    assert_eq!((numbers[FORM], others[FORM]), (0, 1));
    numbers[FORM] = 1;
    assert_eq!(numbers, others);
    assert_eq!(first.body.id, second.body.id);
    assert_eq!(first.body.tail + 2, second.body.tail);
    for (earlier, later) in first.keys.chunks(2).zip(second.keys.chunks(2)) {
        assert_eq!([earlier[0] + 2, earlier[1]], later);
    }
    1
}

/// A fault: its number, and how it is planted.
type Fault = (u32, fn(&mut WriteDraft));

/// Those that are tested before 33, the pairs' last.
const BEFORE: [Fault; 13] = [
    (3, |d| d.numbers[0] = 3),
    (5, |d| d.numbers[1] ^= 1),
    (6, |d| d.numbers[2] ^= 1),
    (7, |d| {
        d.numbers[2] = if d.id.len() == 16 { 0x0478 } else { 0x0378 }
    }),
    (24, |d| d.id.push(0)),
    (26, |d| d.pairs.push(0)),
    (26, |d| WriteDraft::outside(&mut d.pairs, 6, &d.text)),
    (27, |d| WriteDraft::too_many(&mut d.pairs, 4)),
    (27, |d| WriteDraft::long_part(&mut d.pairs, 7, 65_536)),
    (10, |d| d.bad_key(3)),
    (11, |d| WriteDraft::bad_part(&mut d.pairs, 7)),
    (12, |d| d.repeat_key(3)),
    (13, |d| WriteDraft::long_part(&mut d.pairs, 7, 65_490)),
];

/// Those that are tested after it, the keys' first.
const AFTER: [Fault; 12] = [
    (26, |d| d.keys.push(0)),
    (26, |d| d.key_outside()),
    (27, |d| WriteDraft::too_many(&mut d.keys, 6)),
    (27, |d| d.long_key_part()),
    (38, |d| d.no_key()),
    (16, |d| d.bad_provider(0)),
    (17, |d| d.numbers[3] = 3),
    (19, |d| d.numbers[4] += 1),
    (25, |d| d.suite_data.push(0)),
    (20, |d| d.content(2, 0)),
    (20, |d| d.content(1, 1)),
    (28, |d| d.room -= 1),
];

/// The length of a draft's body of each version, with its four pairs of 12
/// bytes and two keys of 18, and of one of the old form.
const LENGTHS: [u64; 2] = [34 + 2 + 48 + 36, 76 + 2 + 48 + 36];
const OLD_LENGTHS: [u64; 2] = [36 + 36, 78 + 36];

/// A body with pairs that is marked old and has another fault: the one that is
/// tested first is answered. Not marked, it is the other.
pub fn a_pair_in_the_old_form(codec: &impl Codec) -> u64 {
    let mut compared = 0;
    for (version, length) in [1, 2].into_iter().zip(LENGTHS) {
        let before = BEFORE.map(|(number, plant)| (number, plant, number));
        let after = AFTER.map(|(number, plant)| (number, plant, 33));
        for (number, plant, marked) in before.into_iter().chain(after) {
            let mut draft = WriteDraft::body(version);
            plant(&mut draft);
            compared += drafted(codec, &draft, number, length);
            draft.mark_old();
            compared += drafted(codec, &draft, marked, length);
        }
        let mut draft = WriteDraft::body(version);
        draft.mark_old();
        compared += drafted(codec, &draft, 33, length);
    }
    compared
}

/// A body without pairs has no 33: marked old, it is written, or answers what is
/// tested after.
pub fn no_pair_in_the_old_form(codec: &impl Codec) -> u64 {
    let mut compared = 0;
    for (version, length) in [1, 2].into_iter().zip(OLD_LENGTHS) {
        let sound = WriteDraft::old_body(version);
        let mut out = vec![0xEE; sound.room];
        let answer = codec.write_body(lent(&sound), &mut out);
        assert_eq!(answer, Ok(length));
        assert_eq!(codec.body_len(lent(&sound)), Ok(length));
        compared += 2;
        for (number, plant) in AFTER {
            let mut draft = sound.clone();
            plant(&mut draft);
            compared += drafted(codec, &draft, number, length);
        }
    }
    compared
}

fn lent(draft: &WriteDraft) -> Lent<'_> {
    Lent {
        numbers: draft.numbers,
        id: &draft.id,
        suite_data: &draft.suite_data,
        text: &draft.text,
        pairs: &draft.pairs,
        keys: &draft.keys,
    }
}

fn drafted(codec: &impl Codec, draft: &WriteDraft, number: u32, length: u64) -> u64 {
    match number {
        28 => is_too_short(codec, lent(draft), draft.room, length),
        _ => is_refused(codec, lent(draft), draft.room, number),
    }
}
