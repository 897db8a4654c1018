//! One request to write, handed to both.

use crate::guarded::Guarded;
use crate::kept::Kept;
use crate::lengths::{foretold, frames_len, header_body_len, rooms};
use crate::numbers::{self, refused, Answer};
use crate::reads::{few, shown_at};
use bafirolen::{Draft, Refusal};

/// A draft with the fronts of what it lends, as a failure shows it.
pub fn shown<'a>(draft: &Draft<'a>) -> Draft<'a> {
    let mut front = Draft::new(draft.numbers, few(draft.message_id))
        .with_suite_data(few(draft.suite_data))
        .with_tables(few(draft.text), few(draft.pairs), few(draft.keys));
    front.policy = draft.policy;
    front
}

/// The answers, and the outputs and what is lent beside them afterwards; gives
/// ours, and the output.
pub(crate) fn both<const BYTES: usize, const TABLES: usize>(
    out: &[u8],
    lent: ([&[u8]; BYTES], [&[u32]; TABLES]),
    what: impl Fn() -> String,
    ours: impl FnOnce(&mut [u8]) -> Result<usize, Refusal>,
    theirs: impl FnOnce(&mut [u8]) -> Result<u64, reference::Refusal>,
) -> (Answer<usize>, Vec<u8>) {
    let (mut our_out, mut their_out) = (Guarded::new(out), out.to_vec());
    let (bytes, tables) = (Kept::new(lent.0), Kept::new(lent.1));
    let answer = ours(our_out.lend());
    bytes.assert_unchanged("bytes of a writer");
    tables.assert_unchanged("tables of a writer");
    let wanted = theirs(&mut their_out)
        .map(|length| length as usize)
        .map_err(refused);
    assert!(
        answer == wanted,
        "{answer:?} against {wanted:?}, output of {} bytes: {}",
        out.len(),
        what()
    );
    our_out.assert_holds(&their_out, "output");
    (answer, their_out)
}

pub fn write_aad_section(text: &[u8], pairs: &[u32], out: &[u8]) -> (Answer<usize>, Vec<u8>) {
    both(
        out,
        ([text], [pairs]),
        || format!("pairs {:?} of {:02X?}", few(pairs), few(text)),
        |out| bafirolen::write_aad_section(text, pairs, out),
        |out| reference::write_aad_section(text, pairs, out),
    )
}

pub fn write_encrypted_data_keys_section(
    text: &[u8],
    keys: &[u32],
    out: &[u8],
) -> (Answer<usize>, Vec<u8>) {
    both(
        out,
        ([text], [keys]),
        || format!("keys {:?} of {:02X?}", few(keys), few(text)),
        |out| bafirolen::write_encrypted_data_keys_section(text, keys, out),
        |out| reference::write_encrypted_data_keys_section(text, keys, out),
    )
}

pub fn write_header_auth_tag(
    suite: u32,
    iv: &[u8],
    tag: &[u8],
    out: &[u8],
) -> (Answer<usize>, Vec<u8>) {
    both(
        out,
        ([iv, tag], []),
        || {
            format!(
                "suite {suite:04X}, IV {:02X?}, tag {:02X?}",
                few(iv),
                few(tag)
            )
        },
        |out| bafirolen::write_header_auth_tag(suite, iv, tag, out),
        |out| reference::write_header_auth_tag(suite, iv, tag, out),
    )
}

/// The pairs of a section that are required, to be authenticated only.
pub fn write_only_authenticated(
    message: &[u8],
    start: u64,
    text: &[u8],
    required: &[u32],
    out: &[u8],
) -> (Answer<usize>, Vec<u8>) {
    both(
        out,
        ([message, text], [required]),
        || {
            format!(
                "required {:?} of {:02X?}, {}",
                few(required),
                few(text),
                shown_at(message, start)
            )
        },
        |out| bafirolen::write_only_authenticated(message, start, text, required, out),
        |out| reference::write_only_authenticated(message, start, text, required, out),
    )
}

pub fn write_listing(message: &[u8], out: &[u8]) -> (Answer<usize>, Vec<u8>) {
    both(
        out,
        ([message], []),
        || format!("{:02X?}", few(message)),
        |out| bafirolen::write_listing(message, out),
        |out| reference::write_listing(message, out),
    )
}

/// What other outputs are filled with.
const FILL: u8 = 0xEE;

/// Writes into the output, and into others about the length, which was asked
/// before: each answer is the one foretold.
pub(crate) fn about_length<const N: usize>(
    tables: [&[u32]; N],
    length: Answer<usize>,
    out: &[u8],
    write: impl Fn(&[u8]) -> (Answer<usize>, Vec<u8>),
) -> (Answer<usize>, Vec<u8>) {
    let others = rooms(tables, length).into_iter();
    for room in others.filter(|room| *room != out.len()) {
        let (answer, out) = write(&vec![FILL; room]);
        assert_eq!(answer, foretold(length, room), "an output of {room} bytes");
        let kept = &out[answer.unwrap_or(0)..];
        assert!(kept.iter().all(|&byte| byte == FILL), "{answer:?}");
    }
    let answered = write(out);
    assert_eq!(answered.0, foretold(length, out.len()));
    answered
}

/// The length is asked first, and then the body is also written into outputs
/// about that length.
pub fn write_header_body(draft: Draft, out: &[u8]) -> (Answer<usize>, Vec<u8>) {
    let length = header_body_len(&draft);
    let tables = [draft.pairs, draft.keys];
    about_length(tables, length, out, |out| write_body(&draft, out))
}

/// Frames likewise.
pub fn write_frames(
    frame_length: u32,
    text: &[u8],
    frames: &[u32],
    out: &[u8],
) -> (Answer<usize>, Vec<u8>) {
    let length = frames_len(frame_length, text, frames);
    let what = || format!("{frame_length}, {:?} of {:02X?}", few(frames), few(text));
    about_length([frames], length, out, |out| {
        both(
            out,
            ([text], [frames]),
            what,
            |out| bafirolen::write_frames(frame_length, text, frames, out),
            |out| reference::write_frames(frame_length, text, frames, out),
        )
    })
}

fn write_body(draft: &Draft, out: &[u8]) -> (Answer<usize>, Vec<u8>) {
    let bytes = [draft.message_id, draft.suite_data, draft.text];
    both(
        out,
        (bytes, [draft.pairs, draft.keys]),
        || format!("{:02X?}", shown(draft)),
        |out| bafirolen::write_header_body(draft, out),
        |out| {
            let policy = numbers::policy(draft.policy);
            reference::write_header_body_under_policy(policy, &numbers::draft(draft), out)
        },
    )
}
