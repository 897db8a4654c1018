//! Frames, read.

use super::{Codec, Refused};
use crate::headers::hex;

const IV: &str = "A0 A1 A2 A3 A4 A5 A6 A7 A8 A9 AA AB";
const TAG: &str = "B0 B1 B2 B3 B4 B5 B6 B7 B8 B9 BA BB BC BD BE BF";

/// Bytes from hexadecimal digits, in which `IV` and `TAG` stand for their own.
pub(super) fn bytes(text: &str) -> Vec<u8> {
    hex(&text.replace("IV", IV).replace("TAG", TAG))
}

/// Two regular frames of 4 bytes and a final one of 2: 36, 36 and 42 bytes.
pub(super) const THREE: &str = "00 00 00 01 IV 61 62 63 64 TAG 00 00 00 02 IV 65 66 67 68 TAG \
                     FF FF FF FF 00 00 00 03 IV 00 00 00 02 69 6A TAG";
pub(super) const LENGTH: u32 = 4;
pub(super) const THREE_TABLE: [u32; 18] = [
    4, 12, 16, 4, 20, 16, //
    40, 12, 52, 4, 56, 16, //
    80, 12, 96, 2, 98, 16,
];
const THREE_TAIL: u64 = 114;
/// Where each read of it ends.
const THREE_STOPS: [u64; 14] = [4, 16, 20, 36, 40, 52, 56, 72, 76, 80, 92, 96, 98, 114];

/// The table and the tail.
type Read<'a> = (&'a [u32], u64);
/// The message, the start, the frame length, and the answer.
type Row<'a> = (&'a str, u64, u32, Result<Read<'a>, Refused>);

/// `ONE` and `REGULAR` stand for these.
const ONE: &str = "FF FF FF FF 00 00 00 01 IV";
const REGULAR: &str = "00 00 00 01 IV 61 62 63 64 TAG";

/// A final frame with empty content; and such a one behind a regular frame.
const EMPTY: Read = (&[8, 12, 24, 0, 24, 16], 40);
const TWO: Read = (&[4, 12, 16, 4, 20, 16, 44, 12, 60, 0, 60, 16], 76);

/// What one frame, or none, decides.
const FIRST: [Row; 30] = [
    // A final frame alone: empty, shorter than the frame length, as long as
    // it, and a byte longer.
    ("ONE 00 00 00 00 TAG", 0, 4, Ok(EMPTY)),
    ("ONE 00 00 00 00 TAG", 0, 1, Ok(EMPTY)),
    (
        "ONE 00 00 00 01 61 TAG",
        0,
        1,
        Ok((&[8, 12, 24, 1, 25, 16], 41)),
    ),
    (
        "ONE 00 00 00 03 61 62 63 TAG",
        0,
        4,
        Ok((&[8, 12, 24, 3, 27, 16], 43)),
    ),
    (
        "ONE 00 00 00 03 61 62 63 TAG",
        0,
        u32::MAX,
        Ok((&[8, 12, 24, 3, 27, 16], 43)),
    ),
    (
        "ONE 00 00 00 04 61 62 63 64 TAG",
        0,
        4,
        Ok((&[8, 12, 24, 4, 28, 16], 44)),
    ),
    ("ONE 00 00 00 05 61 62 63 64 65 TAG", 0, 4, Err((35, 0))),
    ("ONE 00 00 00 02 61 62 TAG", 0, 1, Err((35, 0))),
    // What stands behind the final frame is not looked at.
    ("ONE 00 00 00 00 TAG FF FF FF FF", 0, 4, Ok(EMPTY)),
    ("ONE 00 00 00 00 TAG 00 00 00 02 IV", 0, 4, Ok(EMPTY)),
    // 35 needs the length alone, and every byte of it is looked at.
    ("ONE 00 00 00 05", 0, 4, Err((35, 0))),
    ("ONE 00 00 01 00", 0, 4, Err((35, 0))),
    ("ONE 00 01 00 00", 0, 4, Err((35, 0))),
    ("ONE 01 00 00 00", 0, 4, Err((35, 0))),
    ("ONE FF FF FF FF", 0, 4, Err((35, 0))),
    ("ONE FF FF FF FF", 0, u32::MAX - 1, Err((35, 0))),
    ("ONE 00 00 00 04", 0, 4, Err((2, 28))),
    ("ONE 00 00 00 00", 0, 4, Err((2, 40))),
    // 34 needs the number alone, and every byte of it is looked at.
    ("00 00 00 00", 0, 4, Err((34, 0))),
    ("00 00 00 02", 0, 4, Err((34, 0))),
    ("01 00 00 00", 0, 4, Err((34, 0))),
    ("01 00 00 01", 0, 4, Err((34, 0))),
    ("00 00 01 01", 0, 4, Err((34, 0))),
    ("FF FF FF FE", 0, 4, Err((34, 0))),
    ("FF FF FF FF 00 00 00 00", 0, 4, Err((34, 0))),
    ("FF FF FF FF 00 00 00 02", 0, 4, Err((34, 0))),
    ("FF FF FF FF 80 00 00 01", 0, 4, Err((34, 0))),
    ("FF FF FF FF FF FF FF FF", 0, 4, Err((34, 0))),
    // The first number is wanted whole before it is looked at.
    ("FF FF FF", 0, 4, Err((2, 4))),
    ("FF FF FF FF FF FF FF", 0, 4, Err((2, 8))),
];

/// What a second frame decides, the start, and the frame length.
const LATER: [Row; 24] = [
    (
        "REGULAR FF FF FF FF 00 00 00 02 IV 00 00 00 00 TAG",
        0,
        4,
        Ok(TWO),
    ),
    // It ends with the final frame, wherever that is.
    (
        "REGULAR FF FF FF FF 00 00 00 02 IV 00 00 00 00 TAG EE",
        0,
        4,
        Ok(TWO),
    ),
    ("REGULAR REGULAR", 0, 4, Err((34, 0))),
    ("REGULAR 00 00 00 03", 0, 4, Err((34, 0))),
    ("REGULAR 00 00 00 00", 0, 4, Err((34, 0))),
    ("REGULAR FF FF FF FF 00 00 00 01", 0, 4, Err((34, 0))),
    ("REGULAR FF FF FF FF 00 00 00 03", 0, 4, Err((34, 0))),
    (
        "REGULAR FF FF FF FF 00 00 00 02 IV 00 00 00 05",
        0,
        4,
        Err((35, 0)),
    ),
    ("REGULAR", 0, 4, Err((2, 40))),
    ("REGULAR FF FF FF FF", 0, 4, Err((2, 44))),
    ("REGULAR 00 00 00 02", 0, 4, Err((2, 52))),
    // By a wrong frame length the next number is read a byte early or late:
    // it is BF 00 00 00, or 00 00 02 A0.
    ("REGULAR 00 00 00 02 IV", 0, 3, Err((34, 0))),
    ("REGULAR 00 00 00 02 IV", 0, 5, Err((34, 0))),
    ("REGULAR", 0, 5, Err((2, 37))),
    // Positions beyond 32 bits.
    ("00 00 00 01 IV", 0, u32::MAX, Err((2, 4_294_967_311))),
    (
        "EE EE EE 00 00 00 01 IV 61",
        3,
        u32::MAX,
        Err((2, 4_294_967_314)),
    ),
    ("ONE FF FF FF FF", 0, u32::MAX, Err((2, 4_294_967_319))),
    ("", 4_294_967_295, 4, Err((2, 4_294_967_299))),
    // 1, then 20, then the rest.
    ("", 4_294_967_296, 0, Err((1, 0))),
    ("REGULAR", u64::MAX, 4, Err((1, 0))),
    ("", 0, 0, Err((20, 0))),
    ("00 00 00 00", 0, 0, Err((20, 0))),
    ("ONE 00 00 00 00 TAG", 0, 0, Err((20, 0))),
    ("", 4_294_967_295, 0, Err((20, 0))),
];

/// The table as far as it was filled, and the tail.
pub(super) type Answer = Result<(Vec<u32>, u64), Refused>;

/// Asks with a table of this length; what it holds beyond the frames keeps, and
/// all of it where they are refused.
pub(super) fn ask(
    codec: &impl Codec,
    message: &[u8],
    (start, length): (u64, u32),
    room: usize,
) -> Answer {
    let mut table = vec![7; room];
    let answer = codec.read_frames(message, start, length, &mut table);
    let filled = answer.map_or(0, |(frames, _)| 6 * frames as usize);
    let kept = table[filled..].iter().all(|&number| number == 7);
    assert!(kept, "start {start}, length {length}, table of {room}");
    table.truncate(filled);
    answer.map(|(_, tail)| (table, tail))
}

fn held(codec: &impl Codec, rows: &[Row]) -> u64 {
    let mut compared = 0;
    for (text, start, length, wanted) in rows {
        let text = text.replace("ONE", ONE).replace("REGULAR", REGULAR);
        let message = bytes(&text);
        let ask = |room: usize| ask(codec, &message, (*start, *length), room);
        let wanted = wanted.map(|(table, tail)| (table.to_vec(), tail));
        let numbers = wanted.as_ref().map_or(0, |(table, _)| table.len());
        for room in [numbers, numbers + 1, numbers + 13] {
            assert_eq!(ask(room), wanted, "{text}, table of {room}");
        }
        // A table that is too short hides no other refusal.
        let short = wanted.and(Err((23, 0)));
        for room in [0, numbers.saturating_sub(1)] {
            assert_eq!(ask(room), short, "{text}, table of {room}");
        }
        compared += 5;
    }
    compared
}

/// Each row with tables that hold the frames and with tables that don't.
pub fn one_or_two_frames(codec: &impl Codec) -> u64 {
    held(codec, &FIRST) + held(codec, &LATER)
}

/// The three frames whole, and cut at every byte; at the front of the message,
/// and behind other bytes.
pub fn cut_and_moved(codec: &impl Codec) -> u64 {
    let mut compared = 0;
    for start in [0, 5] {
        let mut message = vec![0xEE; start as usize];
        message.extend(bytes(THREE));
        for cut in 0..=THREE_TAIL {
            let there = &message[..(start + cut) as usize];
            let wanted = match THREE_STOPS.into_iter().find(|&stop| stop > cut) {
                Some(stop) => Err((2, start + stop)),
                None => Ok((moved(start as u32), start + THREE_TAIL)),
            };
            assert_eq!(ask(codec, there, (start, LENGTH), 18), wanted, "cut {cut}");
            compared += 1;
        }
    }
    compared
}

/// The table of the three frames behind so many bytes.
fn moved(by: u32) -> Vec<u32> {
    let places = THREE_TABLE.chunks(2);
    places.flat_map(|place| [place[0] + by, place[1]]).collect()
}

/// Tables of every length: the last numbers of a longer one keep.
pub fn tables_of_every_length(codec: &impl Codec) -> u64 {
    let message = bytes(THREE);
    for room in 0..=25 {
        let wanted = match room {
            0..18 => Err((23, 0)),
            _ => Ok((THREE_TABLE.to_vec(), THREE_TAIL)),
        };
        assert_eq!(ask(codec, &message, (0, LENGTH), room), wanted, "{room}");
    }
    26
}

/// What the three frames with one byte replaced are answered, where 4 bytes
/// stand behind them: the numbers, the mark and the length alone are tested.
fn replaced(at: usize, byte: u8) -> Answer {
    let mut table = THREE_TABLE.to_vec();
    match at {
        0..4 | 36..40 | 72..80 => Err((34, 0)),
        92..95 => Err((35, 0)),
        95 if u32::from(byte) > LENGTH => Err((35, 0)),
        95 => {
            // The content is shorter or longer, and the tag moves.
            let length = u32::from(byte);
            table[15] = length;
            table[16] = 96 + length;
            Ok((table, 112 + u64::from(byte)))
        }
        _ => Ok((table, THREE_TAIL)),
    }
}

/// Every byte of the three frames replaced by every other.
pub fn every_byte(codec: &impl Codec) -> u64 {
    let mut message = bytes(THREE);
    message.extend([0xEE; 4]);
    let mut compared = 0;
    for at in 0..THREE_TAIL as usize {
        let right = message[at];
        for byte in (0..=0xFF).filter(|&byte| byte != right) {
            message[at] = byte;
            let answer = ask(codec, &message, (0, LENGTH), 18);
            assert_eq!(answer, replaced(at, byte), "{byte} at {at}");
            compared += 1;
        }
        message[at] = right;
    }
    compared
}
