//! Frames written from a text of 4 GiB, and how long they are: contents as long
//! as 32 bits count, which all frames share.

use super::frame_writes::{refuses, takes};
use super::Codec;
use crate::headers::hex;
use crate::large::zeros;

const BOUND: usize = 1 << 32;
const MOST: u32 = u32::MAX;
/// How many answers these rows have: of 13 refusals; of each length itself
/// and of the outputs that can be had, four for twelve of them and one for six;
/// of four places inside, and of five that aren't.
pub const ANSWERS: u64 = 13 * 3 + (18 + 12 * 4 + 6) + 4 * 6 + 5 * 3;
/// How long the text is, of which some rows are lent less.
const WHOLE: usize = BOUND + 100;

/// The frame length, how many frames there are, the content of the last, and
/// how long all of them are.
type Length = (u32, usize, u32, u64);

const LENGTHS: [Length; 18] = [
    // Just what a message can have, and more.
    (MOST, 1, 4_294_967_255, 4_294_967_295),
    (MOST, 1, 4_294_967_256, 4_294_967_296),
    (MOST, 1, 4_294_967_257, 4_294_967_297),
    (MOST, 1, MOST, 4_294_967_335),
    (2_147_483_000, 2, 2_147_483_000, 4_294_966_072),
    (4_294_967_223, 2, 0, 4_294_967_295),
    (4_294_967_224, 2, 0, 4_294_967_296),
    (MOST, 2, 0, 4_294_967_367),
    (MOST, 2, MOST, 8_589_934_662),
    (1 << 31, 3, 0, 4_294_967_400),
    (1 << 31, 3, 1 << 31, 6_442_451_048),
    // As many frames as can be.
    (65_505, 65_535, 65_496, 4_294_967_294),
    (65_505, 65_535, 65_497, 4_294_967_295),
    (65_505, 65_535, 65_498, 4_294_967_296),
    (65_505, 65_535, 65_505, 4_294_967_303),
    (1 << 31, 65_535, 9, 140_733_195_485_169),
    (MOST, 65_535, 0, 281_466_388_807_658),
    (MOST, 65_535, MOST, 281_470_683_774_953),
];

/// One place for all IVs and tags, and one for all contents.
fn shared(length: u32, count: usize, last: u32) -> Vec<u32> {
    let mut table = [7, 12, 0, length, 7, 16].repeat(count - 1);
    table.extend([7, 12, 0, last, 7, 16]);
    table
}

/// The length, and 28 of outputs about what 32 bits keep of it.
fn longer(codec: &impl Codec, text: &[u8], (length, count, last, all): Length) -> u64 {
    let table = shared(length, count, last);
    assert_eq!(codec.frames_len(length, text, &table), Ok(all), "{all}");
    let kept = all as u32 as usize;
    let mut answers = 1;
    for room in [0, kept.saturating_sub(1), kept, kept + 1] {
        // What is nearly 4 GiB fits no output that can be had here.
        if room < 1 << 22 {
            let mut out = vec![0xEE; room];
            let answer = codec.write_frames(length, text, &table, &mut out);
            assert_eq!(answer, Err((28, 0)), "{all}, output of {room}");
            assert!(out.iter().all(|&byte| byte == 0xEE), "{all}");
            answers += 1;
        }
    }
    answers
}

/// Places of an IV, a content and a tag, how much of the text is lent, and
/// whether they lie in it.
type Across = ([u32; 6], usize, bool);

/// The content, the tag or the IV lies across 4 GiB, or begins at the last byte
/// that a start can name.
const ACROSS: [Across; 9] = [
    ([0, 12, 0xFFFF_FFF8, 16, 0, 16], BOUND + 8, true),
    ([0, 12, 0xFFFF_FFF8, 16, 0, 16], BOUND + 7, false),
    ([0, 12, 0xFFFF_FFF8, 16, 0, 16], BOUND - 1, false),
    ([0, 12, 0, 16, MOST, 16], BOUND + 15, true),
    ([0, 12, 0, 16, MOST, 16], BOUND + 14, false),
    ([MOST, 12, 0, 16, 0, 16], BOUND + 11, true),
    ([MOST, 12, 0, 16, 0, 16], BOUND + 10, false),
    ([MOST, 12, MOST, 0, MOST, 16], WHOLE, true),
    ([MOST, 12, MOST, 0, MOST, 16], 300, false),
];

/// What is written of such places: 0 but for eight letters before the bound
/// and 16 behind it.
fn across(codec: &impl Codec, text: &[u8], (entry, lent, inside): Across) -> u64 {
    let text = &text[..lent];
    let asked = (16, text, &entry[..]);
    if !inside {
        return refuses(codec, asked, 26);
    }
    let part = |at: usize| &text[entry[at] as usize..][..entry[at + 1] as usize];
    let front = hex("FF FF FF FF 00 00 00 01");
    let length = entry[3].to_be_bytes();
    takes(
        codec,
        asked,
        &[&front, part(0), &length, part(2), part(4)].concat(),
    )
}

/// A content that is longer than the frame length, or isn't it, by as much as
/// 32 bits count.
fn refused(codec: &impl Codec, text: &[u8]) -> u64 {
    let ask = |length, table: &[u32], number| refuses(codec, (length, text, table), number);
    ask(MOST - 1, &shared(MOST - 1, 3, MOST), 35)
        + ask(MOST - 1, &shared(MOST, 3, 0), 37)
        + ask(1, &shared(1, 1, 0x8000_0001), 35)
        + ask(1, &shared(0x8000_0001, 2, 0), 37)
        + ask(MOST, &[0, MOST, 0, 0, 0, 16], 19)
        + ask(MOST, &[0, 12, 0, 0, 0, MOST], 30)
        + ask(MOST, &[102, MOST, 0, 0, 0, 16], 26)
        + ask(MOST, &[101, MOST, 0, 0, 0, 16], 19)
        // Right in their lowest bytes.
        + ask(9, &[0, 268, 0, 0, 0, 16], 19)
        + ask(9, &[0, 65_548, 0, 0, 0, 16], 19)
        + ask(9, &[0, 12, 0, 0, 0, 65_552], 30)
        + ask(9, &shared(65_545, 2, 0), 37)
        + ask(9, &shared(9, 2, 16_777_220), 35)
}

pub fn of_four_gibibytes(codec: &impl Codec) -> u64 {
    let mut text = zeros(WHOLE);
    for (byte, letter) in text[BOUND - 8..BOUND + 16].iter_mut().zip(b'A'..) {
        *byte = letter;
    }
    let mut answers = refused(codec, &text);
    for length in LENGTHS {
        answers += longer(codec, &text, length);
    }
    for row in ACROSS {
        answers += across(codec, &text, row);
    }
    answers
}
