//! A separate codec of AWS Encryption SDK message headers, and of the frames
//! behind them.
//!
//! Readers hand out places in the lent message and fill lent tables of
//! 32-bit numbers; writers fill a lent output from its first byte; a draft is
//! mended in the buffer that it stands in, or reissued into an output. An
//! operation that refuses changes nothing it was lent: each one first tests
//! everything, then fills.
//!
//! Numbers that are fields (version, suite and so on) are `u32` throughout,
//! so that a caller can hand in one wider than its stored form; it is refused
//! as any other wrong number is. The mark of a form alone is never wrong: 0 is
//! today's, any other number old. Nor is the number of a policy, which is no
//! field: bodies are read, measured and written under one, or without.
#![forbid(unsafe_code)]

pub mod auth;
pub mod body;
pub mod body_write;
pub mod context;
pub mod context_write;
pub mod frames;
pub mod frames_write;
pub mod keys;
pub mod leaves;
pub mod listing;
pub mod mending;
pub mod only_authenticated;
pub mod policy;
pub mod refusal;
pub mod reissuing;
pub mod seen;
pub mod suites;
pub mod tables;
pub mod utf8;

pub use auth::{read_header_auth_tag, write_header_auth_tag, AuthRecord};
pub use body::{read_header_body, read_header_body_under_policy, Body, Request, Which};
pub use body_write::{header_body_len, write_header_body, Numbers};
pub use body_write::{header_body_len_under_policy, write_header_body_under_policy, Draft};
pub use context::{find, find_part, read_aad_section, Mode, PairsRead};
pub use context_write::write_aad_section;
pub use frames::{read_frames, FramesRead};
pub use frames_write::{frames_len, write_frames};
pub use keys::{read_encrypted_data_keys_section, write_encrypted_data_keys_section, KeysRead};
pub use leaves::{
    compare_parts, equal_parts, read_bytes, read_entry, read_u16, read_u32, read_u8, write_bytes,
    write_entry, write_u16, write_u32, Place,
};
pub use listing::{host_answer, listing, write_listing};
pub use mending::{add_encrypted_data_key, drop_encrypted_data_keys};
pub use only_authenticated::write_only_authenticated;
pub use policy::Policy;
pub use refusal::Refusal;
pub use reissuing::{reissue_header_body, reissued_header_body_len, Reissue};
pub use suites::{lookup, Suite, SUITES};
pub use utf8::is_utf8;
