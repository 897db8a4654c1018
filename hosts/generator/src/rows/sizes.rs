//! Messages at the greatest length, and above it.

use super::{Asked, Codec};
use crate::headers::header_h_at_four_gibibytes;

const GREATEST: usize = u32::MAX as usize;

/// Where H begins in a message that it ends at the greatest length.
const AT: u64 = (GREATEST - 58) as u64;

pub fn messages_of_four_gibibytes(codec: &impl Codec) -> u64 {
    let mut message = header_h_at_four_gibibytes();
    let rows = too_long(codec, &message) + greatest(codec, &message);
    rows + past_section(codec, &mut message[..GREATEST])
}

/// One byte too long: nothing is read, whatever the start.
fn too_long(codec: &impl Codec, long: &[u8]) -> u64 {
    let (mut pairs, mut keys) = ([7u32; 4], [7u32; 6]);
    let mut compared = 0;
    for start in [0, AT, u64::from(u32::MAX), 1 << 32, u64::MAX] {
        let asked = Asked {
            start,
            ..Asked::new(0, false)
        };
        let refusals = [
            codec.read_section(long, start, false, &mut pairs).err(),
            codec.read_keys(long, start, None, &mut keys).err(),
            codec.read_body(long, asked, &mut pairs, &mut keys).err(),
            codec.read_record(long, start, 0).err(),
            codec.read_frames(long, start, 0, &mut keys).err(),
            codec.find(long, start, b"").err(),
            codec
                .write_only_authenticated(long, start, b"", &[0], &mut [])
                .err(),
            Some(codec.host_answer(long, start)),
        ];
        for refusal in refusals {
            assert_eq!(refusal, Some((1, 0)), "start {start}: {refusals:?}");
            compared += 1;
        }
        assert!(codec.find_part(long, start, b"").is_empty());
        compared += 1;
        assert_eq!((pairs, keys), ([7; 4], [7; 6]));
    }
    compared
}

/// At the greatest length the last byte is read, and places fit 32 bits.
fn greatest(codec: &impl Codec, message: &[u8]) -> u64 {
    let (mut pairs, mut keys) = ([7u32; 4], [7u32; 6]);
    let whole = &message[..GREATEST];
    let asked = Asked {
        start: AT,
        ..Asked::new(0, true)
    };
    let body = codec.read_body(whole, asked, &mut pairs, &mut keys);
    assert_eq!(body.map(|body| body.tail), Ok(GREATEST as u64));
    let moved = |start: u32| start + AT as u32;
    assert_eq!(pairs, [moved(26), 4, moved(32), 2]);
    assert_eq!(keys, [moved(38), 2, moved(42), 1, moved(45), 3]);
    let mut compared = 1;
    let end = GREATEST as u64;
    // A cut of the last byte moves the shortage, not the limit.
    let cut = &message[..GREATEST - 1];
    let section = codec.read_section(whole, end, false, &mut pairs).err();
    let record = codec.read_record(whole, end, 0x0014).err();
    for (refusal, position) in [
        (section, 4_294_967_297),
        (record, end + 12),
        (Some(codec.host_answer(cut, AT)), end),
    ] {
        assert_eq!(refusal, Some((2, position)));
        compared += 1;
    }
    // The message is the text as well, and the key's place in it is required.
    let (section, required) = (AT + 20, [moved(26), 4]);
    let mut out = [7; 12];
    let written = codec.write_only_authenticated(whole, section, whole, &required, &mut out);
    assert_eq!(written, Ok(12));
    assert_eq!(out, *b"\0\x01\0\x04lang\0\x02cy");
    compared + 1
}

/// A section at the end of it, of which a part would end past it and past the
/// greatest length as well.
fn past_section(codec: &impl Codec, message: &mut [u8]) -> u64 {
    let mut compared = 0;
    for section in [&[0, 1, 0][..], &[0, 4, 0, 1, 0, 5]] {
        let at = GREATEST - section.len();
        message[at..].copy_from_slice(section);
        let start = at as u64;
        let refusals = [
            codec.read_section(message, start, false, &mut []).err(),
            codec.find(message, start, b"").err(),
            codec
                .write_only_authenticated(message, start, b"", &[0], &mut [])
                .err(),
        ];
        for refusal in refusals {
            assert_eq!(refusal, Some((32, 0)), "{section:?}");
            compared += 1;
        }
    }
    compared
}
