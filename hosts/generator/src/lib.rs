//! Seeded generation of message headers, their parts and the frames behind
//! them, intact and damaged.
//!
//! Every function is determined by its seed; `faults`, `rows` and
//! `section_ends`, which are written by hand, have none, nor has `arrangements`,
//! which leaves nothing out. Images are built here, by concatenation, so that
//! they depend on no codec. Where the damage decides the answer, the case says
//! which answer is expected.
#![forbid(unsafe_code)]

pub mod arrangements;
pub mod auth_cases;
pub mod body_cases;
pub mod body_write_cases;
pub mod drafts;
pub mod faults;
pub mod fields;
pub mod frame_cases;
pub mod frame_faults;
pub mod frame_runs;
pub mod frame_write_cases;
pub mod frames;
pub mod headers;
pub mod image;
pub mod key_cases;
pub mod large;
pub mod lines;
pub mod many;
pub mod mending_cases;
pub mod only_cases;
pub mod policies;
pub mod policy_cases;
pub mod random;
pub mod reissue_cases;
pub mod rows;
pub mod section_cases;
pub mod section_ends;
pub mod sections;
pub mod surroundings;
pub mod table_faults;
pub mod tables;
pub mod texts;
pub mod write_cases;

/// What the damage decides of the answer.
#[derive(Clone, Copy, Debug, PartialEq, Eq)]
pub enum Expected {
    /// Accepted, with the fields and the end the case holds.
    Accepted,
    /// Refused, with this number and position.
    Refused(u32, u64),
    /// Not decided by construction.
    Open,
}

impl Expected {
    /// The refusal, as number and position, or the acceptance is what the
    /// damage decides, if it decides anything.
    pub fn assert_met(self, seed: u64, refusal: Option<(u32, u64)>) {
        let met = match self {
            Expected::Open => true,
            Expected::Accepted => refusal.is_none(),
            Expected::Refused(number, position) => refusal == Some((number, position)),
        };
        assert!(met, "seed {seed}: expected {self:?}, got {refusal:?}");
    }
}

/// A pair: key and value.
pub type Pair = (Vec<u8>, Vec<u8>);

/// A key: provider ID, provider info, ciphertext.
pub type Key = [Vec<u8>; 3];
