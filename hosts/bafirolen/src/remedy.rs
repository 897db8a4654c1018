//! What a caller does about a refusal.

/// What a caller does about a [`Refusal`](crate::Refusal), as its
/// [`remedy`](crate::Refusal::remedy) says.
///
/// ```
/// use bafirolen::{read_header_body, Remedy, Request};
///
/// // What has come of a message so far: version 1 and its type.
/// let refusal = read_header_body(&[0x01, 0x80], 0, Request::default(), &mut [], &mut [])
///     .unwrap_err();
/// match refusal.remedy() {
///     Remedy::Wait { position } => assert_eq!(position, 4), // fetch up to here, ask again
///     Remedy::LendMore => panic!("a longer table"),
///     _ => panic!("{refusal}"), // the message is not taken
/// }
/// ```
#[derive(Clone, Copy, Debug, PartialEq, Eq, Hash)]
#[non_exhaustive]
#[must_use]
pub enum Remedy {
    /// 2: fetch until the message has at least `position` bytes, then ask
    /// again, as [`fetch`](crate::fetch) does. As long as it has fewer, the
    /// answer is the same. If the message is whole already, it is rejected.
    ///
    /// `position` is the end of the next field only. With that many bytes the
    /// answer may be another refusal, a shortage further on among them. Set a
    /// limit: lengths in a message may claim what never comes; and a message
    /// above 4,294,967,295 bytes is refused by 1. No part of a context is
    /// waited for past its section: one that is said to end there is refused by
    /// 32, and not mended by any byte.
    Wait {
        /// How many bytes the message would have to have.
        position: u64,
    },
    /// 22, 23, 28: no earlier test refused, and the lent pair table, the table
    /// of keys or frames, or the output, or the buffer of a draft that a key is
    /// added to, is too short for the answer: the variant says which. Lend a
    /// longer one and ask again; how much longer is not said.
    /// Tables of [`LARGEST_PAIR_TABLE`](crate::LARGEST_PAIR_TABLE) and
    /// [`LARGEST_KEY_TABLE`](crate::LARGEST_KEY_TABLE) numbers always suffice,
    /// and for frames as many as [`frame_table_len`](crate::frame_table_len)
    /// says. For a body [`header_body_len`](crate::header_body_len), for a
    /// reissued one [`reissued_header_body_len`](crate::reissued_header_body_len),
    /// and for frames [`frames_len`](crate::frames_len), says exactly how long an
    /// output is wanted.
    LendMore,
    /// All others: the request is refused whatever more is fetched or lent. A
    /// reader's caller rejects the message (4, 15, 21 and 39 depend on what was
    /// asked for), a writer's caller corrects the fields, the frames (36 and 37
    /// are refused in writing alone, and 35 in reading too) or the required
    /// table (31), and one who looked for a key (29) does without: the context
    /// is good and lacks it. 38 and 39 are a reader's and a writer's: a message
    /// without an encrypted data key is rejected, and a draft is given one; a
    /// message of a version that the policy forbids is rejected, and a draft is
    /// made one of the other version. 40 is answered where keys are dropped: the
    /// draft is good and still has them; another station's key is added first. Where
    /// a draft is [reissued](crate::reissue_header_body), 4 says that it is of
    /// version 2 already, and 6 and 7 are of its own suite if it is refused by them
    /// when it is read, else of the new one.
    Reject,
}
