//! The length of a body, or of frames, before it is written, asked of both, and
//! what it foretells of the writer.

use crate::kept::Kept;
use crate::numbers::{self, refused, Answer};
use crate::reads::few;
use crate::writes::shown;
use bafirolen::{Draft, Refusal};

/// The longest outputs that a length is tried by; a longer image is only ever
/// refused by 28.
const LONGEST: usize = 1 << 17;

/// One request for a length, handed to both. Nothing that is lent changes.
pub fn header_body_len(draft: &Draft) -> Answer<usize> {
    let bytes = Kept::new([draft.message_id, draft.suite_data, draft.text]);
    let tables = Kept::new([draft.pairs, draft.keys]);
    let answer = bafirolen::header_body_len(draft);
    bytes.assert_unchanged("bytes of a length");
    tables.assert_unchanged("tables of a length");
    let policy = numbers::policy(draft.policy);
    let wanted = reference::header_body_len_under_policy(policy, &numbers::draft(draft));
    let wanted = wanted.map(|length| length as usize).map_err(refused);
    assert!(
        answer == wanted,
        "length {answer:?} against {wanted:?}: {:02X?}",
        shown(draft)
    );
    answer
}

/// The same of frames.
pub fn frames_len(frame_length: u32, text: &[u8], frames: &[u32]) -> Answer<usize> {
    let (bytes, tables) = (Kept::new([text]), Kept::new([frames]));
    let answer = bafirolen::frames_len(frame_length, text, frames);
    bytes.assert_unchanged("bytes of a length");
    tables.assert_unchanged("tables of a length");
    let wanted = reference::frames_len(frame_length, text, frames);
    let wanted = wanted.map(|length| length as usize).map_err(refused);
    assert!(
        answer == wanted,
        "length {answer:?} against {wanted:?}: frames of {frame_length}, {:?} of {:02X?}",
        few(frames),
        few(text)
    );
    answer
}

/// What the writer answers to an output of so many bytes: the refusal of the
/// length; where there is none, 28 exactly if the output is shorter.
pub fn foretold(length: Answer<usize>, room: usize) -> Answer<usize> {
    match length {
        Ok(length) if room < length => Err(Refusal::OutputTooShort),
        answer => answer,
    }
}

/// How many outputs were tried, how many of them were too short, and how many
/// by a length that is refused.
#[derive(Default)]
pub struct Tried {
    pub count: u64,
    pub short: u64,
    pub refused: u64,
}

impl Tried {
    /// Ours with outputs of every length up to a few bytes more than the
    /// image's: each answer is foretold, and what isn't written keeps.
    pub fn every_output(
        &mut self,
        seed: u64,
        (length, image): (Answer<usize>, &[u8]),
        write: impl Fn(&mut [u8]) -> Result<usize, Refusal>,
    ) {
        for room in 0..(image.len() + 4).min(1_000) {
            let mut out = vec![seed as u8; room];
            let answer = write(&mut out);
            assert_eq!(answer, foretold(length, room), "seed {seed}, {room}");
            let front = answer.unwrap_or(0);
            assert_eq!(out[..front], image[..front], "seed {seed}, {room}");
            let rest = &out[front..];
            assert!(rest.iter().all(|&byte| byte == seed as u8), "seed {seed}");
            self.short += u64::from(answer == Err(Refusal::OutputTooShort));
            self.refused += u64::from(length.is_err());
            self.count += 1;
        }
    }

    pub fn both_came_about(&self) -> u64 {
        assert!(self.short > 0 && self.refused > 0);
        self.count
    }
}

/// The outputs by which what is foretold is tried: a byte less than the length,
/// just so many, and one more; or, of a refusal, none and plenty for all that
/// the tables name.
pub fn rooms<const N: usize>(tables: [&[u32]; N], length: Answer<usize>) -> Vec<usize> {
    match length {
        Ok(length) => [length - 1, length, length + 1]
            .into_iter()
            .filter(|room| *room <= LONGEST)
            .collect(),
        Err(_) => vec![0, plenty(&tables)],
    }
}

/// Room for all that the tables name, if they name what is there: beside a part
/// stand at most four bytes.
fn plenty(tables: &[&[u32]]) -> usize {
    let places = tables.iter().flat_map(|table| table.chunks_exact(2));
    let parts: u64 = places.map(|place| 4 + u64::from(place[1])).sum();
    100 + parts.min(LONGEST as u64) as usize
}
