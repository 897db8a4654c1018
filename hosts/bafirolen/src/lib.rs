//! A codec of AWS Encryption SDK message headers, and of the frames behind them:
//! a safe wrapper of proved operations, which lie in the archive that
//! `bafirolen-sys` links. Nothing is verified, signed, encrypted or decrypted:
//! that a header or a frame is accepted says how it is built, and not whose it
//! is.
//!
//! A header has an encryption context, pairs of key and value, and encrypted
//! data keys. Both keep their order: no order is tested, and nothing is sorted,
//! but for what [`write_only_authenticated`] writes. There may be no pair; there
//! is at least one encrypted data key, and a header without any is refused by 38,
//! when it is read and when it is to be written.
//!
//! # Lending
//!
//! No function but [`header_body_to_vec`], [`frames_to_vec`],
//! [`add_encrypted_data_key_to_vec`] and [`reissued_header_body_to_vec`]
//! allocates, and none keeps anything. A reader takes a message and the place
//! where it starts, and fills lent tables of numbers with the places of what it
//! read:
//! [`NUMBERS_PER_PAIR`] numbers for each pair of the encryption context,
//! [`NUMBERS_PER_KEY`] for each encrypted data key, [`NUMBERS_PER_FRAME`] for
//! each frame. Its answer borrows both, and gives the pairs, keys and frames as
//! parts of the message.
//! A writer takes such tables with places in a lent text, and fills a lent
//! output from its first byte; how long an output a body takes, and how long
//! frames, [`header_body_len`] and [`frames_len`] say before. What is lent keeps
//! its entries beyond those filled, and on a refusal all of them.
//!
//! Tables of [`LARGEST_PAIR_TABLE`] and [`LARGEST_KEY_TABLE`] numbers (256 KiB
//! and 1.5 MiB), and of [`frame_table_len`] for frames, are never too short; a
//! caller that knows its headers lends shorter ones.
//!
//! # Reading
//!
//! ```
//! use bafirolen::{find_bytes, read_header_body, Request};
//!
//! # fn main() -> Result<(), bafirolen::Refusal> {
//! let message = b"\x01\x80\x01\x78\x00\x01\x02\x03\x04\x05\x06\x07\x08\x09\x0A\x0B\x0C\x0D\x0E\x0F\
//!     \x00\x0C\x00\x01\x00\x04lang\x00\x02cy\
//!     \x00\x01\x00\x02p1\x00\x01a\x00\x03\xAA\xBB\xCC\
//!     \x02\x00\x00\x00\x00\x0C\x00\x00\x10\x00";
//! let (mut pairs, mut keys) = ([0; 40], [0; 60]); // up to ten of each
//! let body = read_header_body(message, 0, Request::default(), &mut pairs, &mut keys)?;
//!
//! assert_eq!((body.numbers.suite, body.numbers.frame_length), (0x0178, 4_096));
//! assert_eq!(body.message_id(), &message[4..20]);
//! assert_eq!(body.tail, 58);
//! assert_eq!((body.pairs().len(), body.keys().len()), (1, 1));
//! for pair in body.pairs() {
//!     assert_eq!((pair.key, pair.value), (&b"lang"[..], &b"cy"[..]));
//! }
//! for key in body.keys() {
//!     assert_eq!((key.provider_id, key.provider_info), (&b"p1"[..], &b"a"[..]));
//!     assert_eq!(key.ciphertext, [0xAA, 0xBB, 0xCC]);
//! }
//! assert_eq!(find_bytes(message, body.context_start(), b"lang")?, b"cy");
//! # Ok(())
//! # }
//! ```
//!
//! Behind a body stands its authentication record, which
//! [`read_header_auth_tag`] reads, and behind that, where the content is framed,
//! stand the frames, which [`read_frames`] reads.
//!
//! # Writing
//!
//! ```
//! use bafirolen::{header_body_len, write_header_body, Draft, Numbers, FRAMED};
//!
//! # fn main() -> Result<(), bafirolen::Refusal> {
//! let text = b"langcyp1a\xAA\xBB\xCC";
//! let pairs = [0, 4, 4, 2]; // "lang" and "cy"
//! let keys = [6, 2, 8, 1, 9, 3]; // "p1", "a" and AA BB CC
//! let message_id = [0x11; 16];
//! let draft = Draft::new(Numbers::version_1(0x0178, FRAMED, 4_096), &message_id)
//!     .with_tables(text, &pairs, &keys);
//! let length = header_body_len(&draft)?;
//! assert_eq!(length, 58);
//! let mut out = vec![0; length];
//! write_header_body(&draft, &mut out)?;
//! assert_eq!(bafirolen::header_number(&out, 0), 0);
//! // The same in one call.
//! assert_eq!(bafirolen::header_body_to_vec(&draft)?, out);
//! # Ok(())
//! # }
//! ```
//!
//! A body that was read gives its own [`draft`](Body::draft). Written, it is the
//! bytes that were read, also where these have an empty context in its old
//! [`Form`].
//!
//! A [`Request`] and a [`Draft`] may name a commitment [`Policy`]: a version that
//! it forbids to be read, or to be written, is then refused by 39.
//!
//! Behind a body [`write_header_auth_tag`] writes its authentication record, and
//! behind that [`write_frames`] writes the frames, whose IVs, contents and tags a
//! cipher gave. Up to 65,535 frames that were read are written again, from their
//! [`frame_table`](Frames::frame_table), to the bytes that were read.
//!
//! # Mending
//!
//! A body that is written and not yet sealed is mended in the buffer in which it
//! stands: [`drop_encrypted_data_keys`] takes the keys of a departed station out,
//! and [`add_encrypted_data_key`] puts one behind the others. All else stays as
//! it was written.
//!
//! # Reissuing
//!
//! [`reissue_header_body`] writes a draft of version 1 as a body of version 2,
//! with a new suite, message ID and suite data, and with the same pairs, keys,
//! content type and frame length; [`reissued_header_body_len`] says before how
//! long that is.
//!
//! # Refusals
//!
//! Whatever is handed in, a function accepts it or answers one [`Refusal`].
//! Its [`remedy`](Refusal::remedy) says what a caller does:
//!
//! - [`Remedy::Wait`] (2): the message breaks off. Fetch until it has at least
//!   that many bytes, and ask again, as [`fetch`] does; if no more will come,
//!   reject it.
//! - [`Remedy::LendMore`] (22, 23, 28): a table or the output is too short.
//!   Lend a longer one, and ask again. No body and no frames are refused so
//!   whose output has the length that [`header_body_len`],
//!   [`reissued_header_body_len`] or [`frames_len`] gave.
//! - [`Remedy::Reject`] (all others): no bytes and no room change the answer.
//!
//! The functions say under 'Errors' which refusals they answer, in the order
//! of their tests: of several that apply, the first is answered.
//!
//! # Fetching
//!
//! [`fetch`] has a source give the bytes of a message, such as those of a pipe,
//! until a reader accepts or refuses them, and none behind what it reads. Its
//! docs say how far an answer to the first bytes of a message may be trusted.
//!
//! # Safety, stack and platform
//!
//! Every function is safe for any arguments. A slice gives a pointer that is
//! good for its length; an empty slice's pointer is never followed, since the
//! operations touch nothing at or beyond a length.
//! `&mut` keeps what is filled apart from all else, and the operations have
//! no condition on the numbers. That the places in an accepted answer lie in
//! the message is proved of the operations. All of this is of the archive that
//! the declarations were made for: a program that may be linked with another
//! compares [`version`]`()` with [`VERSION`].
//!
//! A call takes up to [`STACK_READ`], [`STACK_KEYS`],
//! [`STACK_ONLY_AUTHENTICATED`], [`STACK_LISTED`] or [`STACK_WRITE`] bytes of
//! its thread's stack: 1 KiB to 140 KiB.
//!
//! The archive holds x86-64 code for Linux. The crate needs Rust 1.87 or later.
//! It uses `core`, and with its feature `alloc`, which is on by default, the
//! crate `alloc` for [`header_body_to_vec`], [`frames_to_vec`],
//! [`add_encrypted_data_key_to_vec`] and [`reissued_header_body_to_vec`], which
//! are all that the feature adds. Without default features `core` is all, and no
//! allocator is needed.
#![no_std]
#![deny(missing_docs)]

#[cfg(feature = "alloc")]
extern crate alloc;

mod auth;
mod body;
mod body_len;
mod constants;
mod draft;
mod fetching;
mod finding;
mod form;
mod frame_writes;
mod frames;
mod host;
mod mending;
mod only_authenticated;
mod parts;
mod place;
mod policy;
mod refusal;
mod reissuing;
mod remedy;
mod request;
mod sections;
mod writes;

pub use auth::{read_header_auth_tag, write_header_auth_tag, AuthRecord};
pub use bafirolen_sys::VERSION;
pub use body::{read_header_body, Body};
pub use body_len::header_body_len;
#[cfg(feature = "alloc")]
pub use body_len::header_body_to_vec;
pub use constants::*;
pub use draft::{Draft, Numbers};
pub use fetching::{fetch, most_frame_rounds, most_rounds, Fetched};
pub use finding::{copy_value, find_bytes, find_part, find_value};
pub use form::Form;
#[cfg(feature = "alloc")]
pub use frame_writes::frames_to_vec;
pub use frame_writes::{frames_len, write_frames};
pub use frames::{read_frames, Frame, Frames};
pub use host::{header_number, header_position, version, write_listing};
#[cfg(feature = "alloc")]
pub use mending::add_encrypted_data_key_to_vec;
pub use mending::{add_encrypted_data_key, drop_encrypted_data_keys};
pub use only_authenticated::write_only_authenticated;
pub use parts::{Key, Keys, Pair, Pairs};
pub use place::Place;
pub use policy::Policy;
pub use refusal::Refusal;
#[cfg(feature = "alloc")]
pub use reissuing::reissued_header_body_to_vec;
pub use reissuing::{reissue_header_body, reissued_header_body_len, Reissue};
pub use remedy::Remedy;
pub use request::{Mode, Request, Which};
pub use sections::{read_aad_section, read_encrypted_data_keys_section, Context, KeySection};
pub use writes::{write_aad_section, write_encrypted_data_keys_section, write_header_body};
