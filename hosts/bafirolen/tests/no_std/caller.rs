//! A caller without std, which has a panic handler of its own. It compiles
//! only if nothing that it uses brings std with it, since std has one too. It
//! has no allocator, so that it links only without the feature `alloc`.
#![no_std]

use bafirolen::{
    add_encrypted_data_key, drop_encrypted_data_keys, fetch, frames_len, header_body_len,
    read_header_body, reissue_header_body, reissued_header_body_len, write_frames,
    write_header_body,
};
use bafirolen::{Draft, Key, Refusal, Reissue, Request};
use core::convert::Infallible;

/// How many pairs the header at the message's front has.
pub fn count_pairs(message: &[u8]) -> Result<usize, Refusal> {
    let (mut pairs, mut keys) = ([0; 40], [0; 60]);
    let body = read_header_body(message, 0, Request::default(), &mut pairs, &mut keys)?;
    Ok(body.pairs().len())
}

/// Fetches the header at the front of a source into a room, and gives the part
/// of the room that it fills. The source keeps what stands behind it.
pub fn fetch_front<'r>(source: &mut &[u8], room: &'r mut [u8]) -> Result<&'r [u8], Refusal> {
    let ask = |message: &[u8]| count_pairs(message).map(|_| ());
    let more = |wanted: &mut [u8]| {
        let (piece, rest) = source.split_at(wanted.len().min(source.len()));
        wanted[..piece.len()].copy_from_slice(piece);
        *source = rest;
        Ok::<usize, Infallible>(piece.len())
    };
    let Ok(fetched) = fetch(room, 0, ask, more);
    fetched.answer?;
    Ok(&room[..fetched.held])
}

/// Writes the body of a draft to the front of a room, and gives that front. A
/// room that is too short is refused as the writer refuses it.
pub fn write_front<'r>(draft: &Draft<'_>, room: &'r mut [u8]) -> Result<&'r [u8], Refusal> {
    let length = header_body_len(draft)?;
    let out = room.get_mut(..length).ok_or(Refusal::OutputTooShort)?;
    write_header_body(draft, out)?;
    Ok(out)
}

/// Writes frames to the front of a room likewise.
pub fn write_frames_front<'r>(
    frame_length: u32,
    text: &[u8],
    frames: &[u32],
    room: &'r mut [u8],
) -> Result<&'r [u8], Refusal> {
    let length = frames_len(frame_length, text, frames)?;
    let out = room.get_mut(..length).ok_or(Refusal::OutputTooShort)?;
    write_frames(frame_length, text, frames, out)?;
    Ok(out)
}

/// Writes the draft at the front of a message in version 2 to the front of a room
/// likewise.
pub fn reissue_front<'r>(
    message: &[u8],
    reissue: &Reissue<'_>,
    room: &'r mut [u8],
) -> Result<&'r [u8], Refusal> {
    let length = reissued_header_body_len(message, 0, reissue)?;
    let out = room.get_mut(..length).ok_or(Refusal::OutputTooShort)?;
    reissue_header_body(message, 0, reissue, out)?;
    Ok(out)
}

/// Mends the draft at the front of a room, one key for all with a provider ID,
/// and gives that front. The new key is added first, so that one remains.
pub fn replace_keys<'r>(
    room: &'r mut [u8],
    gone: &[u8],
    new: Key<'_>,
) -> Result<&'r [u8], Refusal> {
    add_encrypted_data_key(room, new)?;
    let tail = drop_encrypted_data_keys(room, gone)?;
    Ok(&room[..tail])
}

#[panic_handler]
fn panic(_: &core::panic::PanicInfo) -> ! {
    loop {}
}
