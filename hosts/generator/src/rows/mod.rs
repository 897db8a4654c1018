//! Rows written by hand from documents 01 and 02: an input, and the answer that
//! it has to get.
//!
//! Each function takes what it holds the rows against, so that one table is
//! there for the separate implementation and for ours. It answers how many
//! rows it held.

pub mod body_lengths;
pub mod forms;
pub mod frame_sizes;
pub mod frame_write_sizes;
pub mod frame_writes;
pub mod frames;
pub mod header_writes;
pub mod headers;
pub mod key_adds;
pub mod key_drops;
pub mod leaves;
pub mod listings;
pub mod many_frames;
pub mod mending;
pub mod mending_long;
pub mod mending_refusals;
pub mod mending_sizes;
pub mod no_key;
pub mod only_authenticated;
pub mod policies;
pub mod policy_faults;
pub mod policy_writes;
pub mod records;
pub mod reissuing;
pub mod reissuing_long;
pub mod reissuing_refusals;
pub mod reissuing_sizes;
pub mod section_ends;
pub mod section_writes;
pub mod sections;
pub mod sizes;
pub mod under;

use under::Under;

/// A refusal: number and position.
pub type Refused = (u32, u64);

/// A section that was read: pairs, keys or frames, and the tail.
pub type Section = Result<(u32, u64), Refused>;

/// A place: start and length.
pub type Place = (u64, u64);

/// What a writer answers, or what it would take: the length.
pub type Written = Result<u64, Refused>;

/// A body that was read.
#[derive(Clone, Copy, Debug, PartialEq, Eq)]
pub struct Body {
    /// Version, type, suite, content type, IV length, frame length and form.
    pub numbers: [u32; 7],
    pub id: Place,
    pub pairs: u32,
    pub keys: u32,
    pub suite_data: Place,
    pub tail: u64,
}

/// What a body reader is asked for.
#[derive(Clone, Copy, Debug)]
pub struct Asked {
    pub start: u64,
    /// 1 or 2, or 0 for either.
    pub version: u32,
    pub strict: bool,
    pub max: Option<u64>,
}

impl Asked {
    pub fn new(version: u32, strict: bool) -> Asked {
        Asked {
            start: 0,
            version,
            strict,
            max: None,
        }
    }
}

/// A record that was read: IV, tag and tail.
pub type Record = Result<([u8; 12], [u8; 16], u64), Refused>;

/// What a body writer is lent beside the output.
#[derive(Clone, Copy, Debug)]
pub struct Lent<'a> {
    /// In the order of [`Body::numbers`].
    pub numbers: [u32; 7],
    pub id: &'a [u8],
    pub suite_data: &'a [u8],
    pub text: &'a [u8],
    pub pairs: &'a [u32],
    pub keys: &'a [u32],
}

/// What the rows are held against. Tables and outputs are lent and filled.
pub trait Codec {
    fn read_section(&self, message: &[u8], start: u64, strict: bool, table: &mut [u32]) -> Section;
    fn read_keys(&self, message: &[u8], start: u64, max: Option<u64>, table: &mut [u32])
        -> Section;
    fn read_body(
        &self,
        message: &[u8],
        asked: Asked,
        pairs: &mut [u32],
        keys: &mut [u32],
    ) -> Result<Body, Refused>;
    /// The same under a policy, by its number.
    fn read_body_under(
        &self,
        policy: u32,
        message: &[u8],
        asked: Asked,
        pairs: &mut [u32],
        keys: &mut [u32],
    ) -> Result<Body, Refused>;
    fn read_record(&self, message: &[u8], start: u64, suite: u32) -> Record;
    fn read_frames(&self, message: &[u8], start: u64, length: u32, table: &mut [u32]) -> Section;
    fn find(&self, message: &[u8], start: u64, key: &[u8]) -> Result<Place, Refused>;
    fn find_part<'a>(&self, message: &'a [u8], start: u64, key: &[u8]) -> &'a [u8];
    fn host_answer(&self, message: &[u8], start: u64) -> (u32, u64);
    fn write_section(&self, text: &[u8], table: &[u32], out: &mut [u8]) -> Written;
    fn write_keys(&self, text: &[u8], table: &[u32], out: &mut [u8]) -> Written;
    /// What the body takes, by what a writer is lent beside the output.
    fn body_len(&self, lent: Lent) -> Written;
    fn write_body(&self, lent: Lent, out: &mut [u8]) -> Written;
    fn body_len_under(&self, policy: u32, lent: Lent) -> Written;
    fn write_body_under(&self, policy: u32, lent: Lent, out: &mut [u8]) -> Written;
    /// What frames of a length take when they are written.
    fn frames_len(&self, length: u32, text: &[u8], table: &[u32]) -> Written;
    fn write_frames(&self, length: u32, text: &[u8], table: &[u32], out: &mut [u8]) -> Written;
    fn write_record(&self, suite: u32, iv: &[u8], tag: &[u8], out: &mut [u8]) -> Written;
    fn write_only_authenticated(
        &self,
        message: &[u8],
        start: u64,
        text: &[u8],
        required: &[u32],
        out: &mut [u8],
    ) -> Written;
}

/// What rows of drafts are held against. The buffer is lent and changed; the
/// answer is the new tail.
pub trait Mend {
    fn drop_keys(&self, draft: &mut [u8], provider_id: &[u8]) -> Written;
    /// Provider ID, provider info and ciphertext.
    fn add_key(&self, draft: &mut [u8], key: [&[u8]; 3]) -> Written;
}

/// What a draft of version 1 gets to become a body of version 2.
#[derive(Clone, Copy, Debug)]
pub struct Added<'a> {
    pub suite: u32,
    pub id: &'a [u8],
    pub suite_data: &'a [u8],
}

/// What rows of drafts that are reissued are held against.
pub trait Reissue {
    fn reissue(&self, message: &[u8], start: u64, added: Added, out: &mut [u8]) -> Written;
    /// What the body takes, without an output.
    fn reissued_len(&self, message: &[u8], start: u64, added: Added) -> Written;
}
