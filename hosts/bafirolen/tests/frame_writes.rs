//! Frames written, and how long they are before: what is told foretells what
//! the writer answers to an output of exactly so many bytes, of one less and of
//! one more.

mod common;

use bafirolen::*;
use common::H;

/// Contents of 3, 3 and 2 bytes, from 0 to 8; three IVs, to 44; three tags, to
/// 92.
const TEXT: &[u8; 92] = b"abcdefgh--- IV 1 ------ IV 2 ------ IV 3 ---\
    ----- tag 1 --------- tag 2 --------- tag 3 ----";

const TABLE: [u32; 18] = [
    8, 12, 0, 3, 44, 16, //
    20, 12, 3, 3, 60, 16, //
    32, 12, 6, 2, 76, 16,
];

/// The frames of 35 bytes, 35 and 42.
const THREE: &[u8; 112] = b"\x00\x00\x00\x01--- IV 1 ---abc----- tag 1 ----\
    \x00\x00\x00\x02--- IV 2 ---def----- tag 2 ----\
    \xFF\xFF\xFF\xFF\x00\x00\x00\x03--- IV 3 ---\x00\x00\x00\x02gh----- tag 3 ----";

/// The writer's answer to an output of so many bytes, and the output.
fn written(length: u32, table: &[u32], room: usize) -> (Result<usize, Refusal>, Vec<u8>) {
    let mut out = vec![0xEE; room];
    let answer = write_frames(length, TEXT, table, &mut out);
    (answer, out)
}

/// The length is that of the image, and what is written is the image.
fn takes(length: u32, table: &[u32], image: &[u8]) {
    let all = image.len();
    assert_eq!(frames_len(length, TEXT, table), Ok(all));
    assert_eq!(written(length, table, all), (Ok(all), image.to_vec()));
    let longer = [image, &[0xEE]].concat();
    assert_eq!(written(length, table, all + 1), (Ok(all), longer));
    let short = vec![0xEE; all - 1];
    let refused = Err(Refusal::OutputTooShort);
    assert_eq!(written(length, table, all - 1), (refused, short));
    #[cfg(feature = "alloc")]
    assert_eq!(frames_to_vec(length, TEXT, table).unwrap(), image);
}

/// The last that is lent is the final one, and a frame alone is it.
#[test]
fn of_one_to_three_frames() {
    takes(3, &TABLE, THREE);
    let two = b"\x00\x00\x00\x01--- IV 1 ---abc----- tag 1 ----\
        \xFF\xFF\xFF\xFF\x00\x00\x00\x02--- IV 2 ---\x00\x00\x00\x03def----- tag 2 ----";
    takes(3, &TABLE[..12], two);
    let one = b"\xFF\xFF\xFF\xFF\x00\x00\x00\x01--- IV 3 ---\x00\x00\x00\x02gh----- tag 3 ----";
    for length in [2, 3, 4_096, u32::MAX] {
        takes(length, &TABLE[12..], one);
    }
    let empty = b"\xFF\xFF\xFF\xFF\x00\x00\x00\x01--- IV 3 ---\x00\x00\x00\x00----- tag 3 ----";
    takes(1, &[32, 12, 92, 0, 76, 16], empty);
}

/// Behind a header and its record; read back, and written once more from the
/// message that was read.
#[test]
fn behind_a_header() {
    let mut message = H.to_vec();
    // The frame length of H is 4,096.
    message[54..].copy_from_slice(&[0, 0, 0, 3]);
    message.resize(58 + 28 + 112, 0);
    let record = write_header_auth_tag(0x0178, &[5; 12], &[6; 16], &mut message[58..]);
    assert_eq!(record, Ok(28));
    assert_eq!(write_frames(3, TEXT, &TABLE, &mut message[86..]), Ok(112));

    let (mut pairs, mut keys) = ([0; 4], [0; 6]);
    let body = read_header_body(&message, 0, Request::default(), &mut pairs, &mut keys).unwrap();
    let record = read_header_auth_tag(&message, body.tail, body.numbers.suite).unwrap();
    assert_eq!((record.iv, record.tag), ([5; 12], [6; 16]));
    let length = body.numbers.frame_length;
    let mut table = vec![0; frame_table_len(112, length)];
    let mut frames = read_frames(&message, record.tail, length, &mut table).unwrap();
    assert_eq!((frames.len(), frames.tail()), (3, 58 + 28 + 112));
    // Whichever are still to come, the table is that of all.
    frames.next();
    let mut again = [0; 112];
    let table = frames.frame_table();
    assert_eq!(frames_len(length, &message, table), Ok(112));
    assert_eq!(write_frames(length, &message, table, &mut again), Ok(112));
    assert_eq!(again, *THREE);
    let contents = frames.map(|frame| frame.content);
    assert!(contents.eq([&b"def"[..], b"gh"]));
}

/// A change of the sound table, the frame length, and the number.
type Fault = (fn(&mut Vec<u32>), u32, u32);

const FAULTS: [Fault; 16] = [
    (|_| {}, 0, 20),
    (|table| table.clear(), 0, 20),
    (|table| table.push(0), 3, 26),
    (|table| table.truncate(5), 3, 26),
    (|table| table[16] = 77, 3, 26),
    (|table| table[0] = u32::MAX, 3, 26),
    (|table| table.clear(), 3, 36),
    (|table| *table = table.repeat(21_846), 3, 27),
    (|table| table[1] = 11, 3, 19),
    (|table| table[13] = 13, 3, 19),
    (|table| table[5] = 15, 3, 30),
    (|table| table[11] = 17, 3, 30),
    (|table| table[3] = 2, 3, 37),
    (|table| table[9] = 4, 3, 37),
    (|_| {}, 4, 37),
    (|table| table[15] = 4, 3, 35),
];

/// Without room and with plenty. None of them is 28, and each is for the caller
/// to correct.
#[test]
fn each_refusal_is_the_writers() {
    for (change, length, number) in FAULTS {
        let mut table = TABLE.to_vec();
        change(&mut table);
        let refusal = Refusal::from_number(number, 0);
        assert_eq!(frames_len(length, TEXT, &table), Err(refusal));
        assert_eq!(refusal.remedy(), Remedy::Reject);
        for room in [0, 1_000] {
            let kept = (Err(refusal), vec![0xEE; room]);
            assert_eq!(written(length, &table, room), kept, "{refusal}");
        }
        #[cfg(feature = "alloc")]
        assert_eq!(frames_to_vec(length, TEXT, &table), Err(refusal));
    }
    assert_eq!(Refusal::from_number(36, 0), Refusal::NoFrame);
    assert_eq!(Refusal::from_number(37, 0), Refusal::RegularContentLength);
}

/// 65,535 frames that share one content of 70,000 bytes, which no output holds
/// that 32 bits count. A content is no part that 27 is for.
#[test]
fn longer_than_32_bits_count() {
    let text = vec![b'a'; 70_000];
    let table = [0, 12, 0, 70_000, 0, 16].repeat(65_535);
    let length = 65_534 * (32 + 70_000) + 40 + 70_000;
    assert_eq!(length, 4_589_547_128);
    assert_eq!(frames_len(70_000, &text, &table), Ok(length));
    // What 32 bits keep of it.
    let mut out = vec![0xEE; 294_579_832];
    let answer = write_frames(70_000, &text, &table, &mut out);
    assert_eq!(answer, Err(Refusal::OutputTooShort));
}

/// Just as long as what is written, and nothing behind it.
#[cfg(feature = "alloc")]
#[test]
fn to_a_vector() {
    let vector = frames_to_vec(3, TEXT, &TABLE).unwrap();
    assert_eq!(vector, THREE);
    assert_eq!(vector.capacity(), 112);
    let text: Vec<u8> = (0..=255).cycle().take(1 << 20).collect();
    let table = [0, 12, 0, 1 << 20, 0, 16].repeat(3);
    let vector = frames_to_vec(1 << 20, &text, &table).unwrap();
    assert_eq!(vector.len(), 2 * (32 + (1 << 20)) + 40 + (1 << 20));
    for start in [16, 48 + (1 << 20), 88 + (2 << 20)] {
        assert!(vector[start..][..1 << 20] == text, "{start}");
    }
}
