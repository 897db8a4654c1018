//! Frames: the parts that an accepted answer gives, and what is refused.

mod common;

use bafirolen::*;
use common::H;

/// Two regular frames of 3 bytes and a final one of 2, each of 35 bytes, 35
/// and 42. No two parts are the same.
const THREE: &[u8; 112] = b"\x00\x00\x00\x01--- IV 1 ---abc----- tag 1 ----\
    \x00\x00\x00\x02--- IV 2 ---def----- tag 2 ----\
    \xFF\xFF\xFF\xFF\x00\x00\x00\x03--- IV 3 ---\x00\x00\x00\x02gh----- tag 3 ----";

const TABLE: [u32; 18] = [
    4, 12, 16, 3, 19, 16, //
    39, 12, 51, 3, 54, 16, //
    78, 12, 94, 2, 96, 16,
];

fn frame<'m>(iv: &'m [u8], content: &'m [u8], tag: &'m [u8]) -> Frame<'m> {
    Frame { iv, content, tag }
}

fn three() -> [Frame<'static>; 3] {
    [
        frame(b"--- IV 1 ---", b"abc", b"----- tag 1 ----"),
        frame(b"--- IV 2 ---", b"def", b"----- tag 2 ----"),
        frame(b"--- IV 3 ---", b"gh", b"----- tag 3 ----"),
    ]
}

#[test]
fn of_three_frames() {
    let mut table = [7; 20];
    let frames = read_frames(THREE, 0, 3, &mut table).unwrap();
    assert_eq!((frames.len(), frames.tail()), (3, 112));
    assert_eq!(frames.frame_table(), TABLE);
    for (frame, place) in frames.clone().zip(TABLE.chunks(NUMBERS_PER_FRAME)) {
        assert_eq!((frame.iv.len(), frame.tag.len()), (IV_LEN, TAG_LEN));
        // Parts of the message itself, and no copies.
        let content = &THREE[place[2] as usize..][..place[3] as usize];
        assert_eq!(frame.content.as_ptr_range(), content.as_ptr_range());
    }
    assert!(frames.eq(three()));
    // Behind what was filled the table is as it was.
    assert_eq!(table[18..], [7; 2]);
}

/// How many are left is known at each step, a copy goes on by itself, and
/// behind the last there is nothing; the table and the tail stay.
#[test]
fn step_by_step() {
    let mut table = [0; 18];
    let mut frames = read_frames(THREE, 0, 3, &mut table).unwrap();
    assert_eq!(frames.next(), Some(three()[0]));
    let mut copy = frames.clone();
    assert_eq!((frames.len(), copy.len()), (2, 2));
    assert_eq!(copy.nth(1), Some(three()[2]));
    assert_eq!((copy.next(), copy.nth(1), copy.len()), (None, None, 0));
    assert_eq!((copy.tail(), copy.frame_table()), (112, &TABLE[..]));
    assert_eq!(frames.clone().nth(2), None);
    frames.next();
    let bytes = |text: &[u8]| format!("{text:?}");
    let [iv, content, tag] = [b"--- IV 3 ---", &b"gh"[..], b"----- tag 3 ----"].map(bytes);
    assert_eq!(
        format!("{frames:?}"),
        format!("[Frame {{ iv: {iv}, content: {content}, tag: {tag} }}]")
    );
}

/// A header, its record, and the frames behind it; what stands behind those is
/// not looked at.
#[test]
fn behind_a_header() {
    let mut message = H.to_vec();
    // The frame length of H is 4,096.
    message[54..].copy_from_slice(&[0, 0, 0, 3]);
    message.extend([0x55; 28]);
    message.extend(THREE);
    message.extend(b"footer");
    let (mut pairs, mut keys) = ([0; 4], [0; 6]);
    let body = read_header_body(&message, 0, Request::default(), &mut pairs, &mut keys).unwrap();
    assert_eq!(body.numbers.content_type, FRAMED);
    let record = read_header_auth_tag(&message, body.tail, body.numbers.suite).unwrap();
    let length = body.numbers.frame_length;
    let mut table = vec![0; frame_table_len(message.len() - record.tail as usize, length)];
    let frames = read_frames(&message, record.tail, length, &mut table).unwrap();
    assert_eq!(frames.tail(), 58 + 28 + 112);
    assert_eq!(message[frames.tail() as usize..], *b"footer");
    assert!(frames.eq(three()));
}

/// The answer to bytes with a table of so many numbers.
fn answer(message: &[u8], start: u64, frame_length: u32, room: usize) -> Result<u64, Refusal> {
    let mut table = vec![7; room];
    let answer = read_frames(message, start, frame_length, &mut table).map(|read| read.tail());
    assert!(answer.is_ok() || table.iter().all(|number| *number == 7));
    answer
}

#[test]
fn each_refusal() {
    let changed = |at: usize, byte: u8| {
        let mut message = THREE.to_vec();
        message[at] = byte;
        message
    };
    assert_eq!(answer(THREE, 0, 3, 18), Ok(112));
    assert_eq!(answer(THREE, 0, 3, 17), Err(Refusal::KeyTableTooShort));
    let far = answer(THREE, 1 << 32, 0, 18);
    assert_eq!(far, Err(Refusal::NotAddressable));
    assert_eq!(answer(THREE, 0, 0, 18), Err(Refusal::FrameLength));
    let cut = answer(&THREE[..111], 0, 3, 0);
    assert_eq!(cut, Err(Refusal::Shortage { position: 112 }));
    assert_eq!(cut.unwrap_err().remedy(), Remedy::Wait { position: 112 });
    for (at, byte) in [(3, 0), (3, 2), (38, 1), (38, 3), (77, 2), (77, 4), (70, 0)] {
        let refused = answer(&changed(at, byte), 0, 3, 18);
        assert_eq!(refused, Err(Refusal::SequenceNumber), "{byte} at {at}");
    }
    // The final content as long as the frame length, and a byte longer.
    let mut full = changed(93, 3);
    full.insert(94, b'g');
    assert_eq!(answer(&full, 0, 3, 18), Ok(113));
    let longer = answer(&changed(93, 4), 0, 3, 0);
    assert_eq!(longer, Err(Refusal::FinalContentTooLong));
    assert_eq!(longer.unwrap_err().remedy(), Remedy::Reject);
}

/// As many frames as can stand in so many bytes just fit; and no argument
/// overflows.
#[test]
fn tables_of_the_length_named() {
    assert_eq!(NUMBERS_PER_FRAME, 6);
    for (length, regular) in [(1, 0), (1, 1), (1, 40), (3, 7), (64, 9)] {
        let mut message = Vec::new();
        for number in 1..=regular as u32 {
            message.extend(number.to_be_bytes());
            message.resize(message.len() + 12 + length + 16, 0);
        }
        message.extend([0xFF; 4]);
        message.extend((regular as u32 + 1).to_be_bytes());
        message.resize(message.len() + 12 + 4 + 16, 0);
        let room = frame_table_len(message.len(), length as u32);
        let read = answer(&message, 0, length as u32, room);
        assert_eq!(read, Ok(message.len() as u64), "{regular} of {length}");
        assert!(room >= 6 * (regular + 1));
    }
    // By hand: 6 * (1 + 0), 6 * (1 + 1), 6 * (1 + 4,294,967,295 / 33).
    assert_eq!(frame_table_len(0, 0), 6);
    assert_eq!(frame_table_len(31, 0), 6);
    assert_eq!(frame_table_len(32, 0), 12);
    assert_eq!(frame_table_len(4_294_967_295, 1), 780_903_150);
    assert_eq!(frame_table_len(4_294_967_295, u32::MAX), 6);
    assert_eq!(frame_table_len(4_294_967_327, u32::MAX), 12);
    assert_eq!(frame_table_len(usize::MAX, 0), 3_458_764_513_820_540_928);
}
