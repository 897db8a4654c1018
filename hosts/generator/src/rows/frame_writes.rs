//! Frames written, and how long they are before.

use super::frames::{bytes, LENGTH, THREE, THREE_TABLE};
use super::Codec;

/// An IV from 0 to 12, a tag to 28, and ten letters to 38.
const TEXT: &str = "IV TAG 61 62 63 64 65 66 67 68 69 6A";

/// The frame length, the table, and the image.
type Row<'a> = (u32, &'a [u32], &'a str);

const IMAGES: [Row; 12] = [
    // A frame alone is the final one: empty, a byte, as long as it may be.
    (
        4,
        &[0, 12, 28, 0, 12, 16],
        "FF FF FF FF 00 00 00 01 IV 00 00 00 00 TAG",
    ),
    (
        1,
        &[0, 12, 28, 1, 12, 16],
        "FF FF FF FF 00 00 00 01 IV 00 00 00 01 61 TAG",
    ),
    (
        4,
        &[0, 12, 28, 4, 12, 16],
        "FF FF FF FF 00 00 00 01 IV 00 00 00 04 61 62 63 64 TAG",
    ),
    (
        u32::MAX,
        &[0, 12, 28, 3, 12, 16],
        "FF FF FF FF 00 00 00 01 IV 00 00 00 03 61 62 63 TAG",
    ),
    // Content of no bytes has a place too, the text's end among them.
    (
        7,
        &[0, 12, 38, 0, 12, 16],
        "FF FF FF FF 00 00 00 01 IV 00 00 00 00 TAG",
    ),
    // Behind a regular frame: the final one empty, shorter, full.
    (
        4,
        &[0, 12, 28, 4, 12, 16, 0, 12, 0, 0, 12, 16],
        "00 00 00 01 IV 61 62 63 64 TAG FF FF FF FF 00 00 00 02 IV 00 00 00 00 TAG",
    ),
    (
        4,
        &[0, 12, 28, 4, 12, 16, 0, 12, 32, 3, 12, 16],
        "00 00 00 01 IV 61 62 63 64 TAG FF FF FF FF 00 00 00 02 IV 00 00 00 03 65 66 67 TAG",
    ),
    (
        1,
        &[0, 12, 37, 1, 12, 16, 0, 12, 28, 1, 12, 16],
        "00 00 00 01 IV 6A TAG FF FF FF FF 00 00 00 02 IV 00 00 00 01 61 TAG",
    ),
    // Two regular ones, the contents from the back.
    (
        4,
        &[
            0, 12, 34, 4, 12, 16, 0, 12, 30, 4, 12, 16, 0, 12, 28, 2, 12, 16,
        ],
        "00 00 00 01 IV 67 68 69 6A TAG 00 00 00 02 IV 63 64 65 66 TAG \
         FF FF FF FF 00 00 00 03 IV 00 00 00 02 61 62 TAG",
    ),
    // The same place again and again.
    (
        3,
        &[
            0, 12, 28, 3, 12, 16, 0, 12, 28, 3, 12, 16, 0, 12, 28, 3, 12, 16,
        ],
        "00 00 00 01 IV 61 62 63 TAG 00 00 00 02 IV 61 62 63 TAG \
         FF FF FF FF 00 00 00 03 IV 00 00 00 03 61 62 63 TAG",
    ),
    // Places that overlap: the second and later bytes of IV, tag and letters.
    (
        5,
        &[1, 12, 10, 5, 13, 16],
        "FF FF FF FF 00 00 00 01 A1 A2 A3 A4 A5 A6 A7 A8 A9 AA AB B0 00 00 00 05 \
         AA AB B0 B1 B2 B1 B2 B3 B4 B5 B6 B7 B8 B9 BA BB BC BD BE BF 61",
    ),
    // A content that looks like a mark, a number or a length is content.
    (
        12,
        &[26, 12, 0, 12, 12, 16, 0, 12, 12, 9, 0, 16],
        "00 00 00 01 BE BF 61 62 63 64 65 66 67 68 69 6A IV TAG \
         FF FF FF FF 00 00 00 02 IV 00 00 00 09 B0 B1 B2 B3 B4 B5 B6 B7 B8 IV B0 B1 B2 B3",
    ),
];

/// The answer to an output of so many bytes, which keeps what isn't written.
fn written(
    codec: &impl Codec,
    (length, text, table): (u32, &[u8], &[u32]),
    room: usize,
    wanted: Result<&[u8], u32>,
) {
    let mut out = vec![0xEE; room];
    let answer = codec.write_frames(length, text, table, &mut out);
    let image = wanted.unwrap_or_default();
    let wanted = wanted.map(|image| image.len() as u64);
    assert_eq!(answer, wanted.map_err(|number| (number, 0)), "{length}");
    assert!(out.starts_with(image), "{length}, output of {room}");
    let rest = &out[image.len()..];
    assert!(rest.iter().all(|&byte| byte == 0xEE), "{length}, {room}");
}

/// The length, and the writer with outputs about it. Answers how many answers
/// these are.
pub(super) fn takes(codec: &impl Codec, asked: (u32, &[u8], &[u32]), image: &[u8]) -> u64 {
    let (length, text, table) = asked;
    let taken = codec.frames_len(length, text, table);
    assert_eq!(taken, Ok(image.len() as u64), "{length}");
    for room in [0, image.len() - 1] {
        written(codec, asked, room, Err(28));
    }
    for room in [image.len(), image.len() + 1, image.len() + 40] {
        written(codec, asked, room, Ok(image));
    }
    6
}

/// The refusal, of the length, and of the writer without room and with plenty.
/// Answers how many answers these are.
pub(super) fn refuses(codec: &impl Codec, asked: (u32, &[u8], &[u32]), number: u32) -> u64 {
    let (length, text, table) = asked;
    let taken = codec.frames_len(length, text, table);
    assert_eq!(taken, Err((number, 0)), "{length}, {} numbers", table.len());
    for room in [0, 400] {
        written(codec, asked, room, Err(number));
    }
    3
}

pub fn images(codec: &impl Codec) -> u64 {
    let text = bytes(TEXT);
    let mut answers = 0;
    for (length, table, image) in IMAGES {
        answers += takes(codec, (length, &text, table), &bytes(image));
    }
    // Frames as they were read, from the message that they were read from.
    let three = bytes(THREE);
    answers + takes(codec, (LENGTH, &three, &THREE_TABLE), &three)
}

/// A sound entry of 4 bytes, and others that aren't.
const SOUND: [u32; 6] = [0, 12, 28, 4, 12, 16];
const IV_11: [u32; 6] = [0, 11, 28, 4, 12, 16];
const TAG_17: [u32; 6] = [0, 12, 28, 4, 12, 17];
const BOTH: [u32; 6] = [0, 13, 28, 4, 12, 15];
const SHORT: [u32; 6] = [0, 12, 28, 3, 12, 16];
const LONG: [u32; 6] = [0, 12, 28, 5, 12, 16];
const OUTSIDE: [u32; 6] = [0, 12, 28, 4, 23, 16];
const EMPTY: [u32; 6] = [0; 6];

/// The frame length, entries, how many numbers are lent beyond them, or not of
/// them, and the refusal.
type Refusal<'a> = (u32, &'a [[u32; 6]], isize, u32);

const REFUSALS: [Refusal; 47] = [
    (0, &[], 0, 20),
    (0, &[], 1, 20),
    (0, &[SOUND], 0, 20),
    (0, &[OUTSIDE], 0, 20),
    (0, &[IV_11], 0, 20),
    (0, &[SHORT, LONG], 0, 20),
    // Not in sixes, whatever the frames are.
    (4, &[], 1, 26),
    (4, &[], 2, 26),
    (4, &[], 5, 26),
    (4, &[SOUND], -1, 26),
    (4, &[SOUND], 1, 26),
    (4, &[SOUND], 2, 26),
    (4, &[SOUND], 4, 26),
    (4, &[IV_11], 1, 26),
    (4, &[SHORT, SOUND], -2, 26),
    // A place outside, in the first frame and in the last.
    (4, &[OUTSIDE], 0, 26),
    (4, &[OUTSIDE, SOUND], 0, 26),
    (4, &[SOUND, OUTSIDE], 0, 26),
    (4, &[BOTH, SHORT, OUTSIDE], 0, 26),
    (4, &[[27, 12, 28, 4, 12, 16]], 0, 26),
    (4, &[[0, 12, 35, 4, 12, 16]], 0, 26),
    (4, &[[0, 12, 39, 0, 12, 16]], 0, 26),
    (4, &[[u32::MAX, 0, 28, 4, 12, 16]], 0, 26),
    (4, &[[0, 12, 28, u32::MAX, 12, 16]], 0, 26),
    (4, &[[0, 12, u32::MAX, u32::MAX, 12, 16]], 0, 26),
    // Start and length add up to 2^32.
    (4, &[[4_294_967_284, 12, 28, 4, 12, 16]], 0, 26),
    (4, &[SOUND, [0, 12, 28, 4, 4_294_967_280, 16]], 0, 26),
    (4, &[], 0, 36),
    (u32::MAX, &[], 0, 36),
    // Of each frame the IV and the tag, before any content.
    (4, &[IV_11], 0, 19),
    (4, &[[0, 13, 28, 4, 12, 16]], 0, 19),
    (4, &[EMPTY], 0, 19),
    (4, &[SOUND, EMPTY], 0, 19),
    (4, &[BOTH], 0, 19),
    (4, &[SHORT, SOUND, IV_11], 0, 19),
    (4, &[SHORT, BOTH, LONG], 0, 19),
    (4, &[TAG_17], 0, 30),
    (4, &[[0, 12, 28, 4, 12, 15]], 0, 30),
    (4, &[[0, 12, 28, 4, 12, 0]], 0, 30),
    (4, &[TAG_17, BOTH], 0, 30),
    (4, &[LONG, LONG, TAG_17], 0, 30),
    // A content before the last of another length, before that of the last.
    (4, &[SHORT, SOUND], 0, 37),
    (4, &[LONG, SOUND], 0, 37),
    (4, &[SOUND, SHORT, LONG], 0, 37),
    (u32::MAX, &[SOUND, SOUND], 0, 37),
    (4, &[LONG], 0, 35),
    (4, &[SOUND, SOUND, LONG], 0, 35),
];

/// Each refusal but 27 and 28, alone and before those that are tested later.
pub fn refusals(codec: &impl Codec) -> u64 {
    let text = bytes(TEXT);
    let mut answers = 0;
    for (length, entries, more, number) in REFUSALS {
        let mut table = entries.concat();
        let numbers = table.len().checked_add_signed(more).expect("a table");
        table.resize(numbers, 0);
        answers += refuses(codec, (length, &text, &table), number);
    }
    answers
}

/// So many of an entry, and one at last.
fn table(count: usize, entry: [u32; 6], last: [u32; 6]) -> Vec<u32> {
    let mut table = entry.repeat(count - 1);
    table.extend(last);
    table
}

/// As many frames as can be written, and one more: 27, before what their parts
/// are refused by, and behind what the places are.
pub fn counts(codec: &impl Codec) -> u64 {
    let text = bytes(TEXT);
    let ask = |length, table: &[u32], number| refuses(codec, (length, &text, table), number);
    let most = table(65_535, SOUND, SHORT);
    let mut image = Vec::new();
    for number in 1..65_535u32 {
        image.extend(number.to_be_bytes());
        image.extend(bytes("IV 61 62 63 64 TAG"));
    }
    image.extend(bytes("FF FF FF FF 00 00 FF FF IV 00 00 00 03 61 62 63 TAG"));
    assert_eq!(image.len(), 65_534 * 36 + 43);
    let answers = takes(codec, (4, &text, &most), &image);
    answers
        + ask(4, &table(65_535, SOUND, LONG), 35)
        + ask(4, &table(65_535, SHORT, LONG), 37)
        + ask(4, &table(65_535, LONG, TAG_17), 30)
        + ask(4, &table(65_535, SOUND, EMPTY), 19)
        + ask(4, &table(65_536, SOUND, SOUND), 27)
        + ask(4, &table(65_536, IV_11, SOUND), 27)
        + ask(4, &table(65_536, SOUND, TAG_17), 27)
        + ask(4, &table(65_536, SHORT, LONG), 27)
        + ask(4, &table(65_537, EMPTY, EMPTY), 27)
        + ask(4, &table(131_072, SOUND, SOUND), 27)
        + ask(4, &table(65_536, SOUND, OUTSIDE), 26)
        + ask(4, &[&table(65_536, SOUND, SOUND)[..], &[0]].concat(), 26)
        + ask(0, &table(65_536, SOUND, SOUND), 20)
}
