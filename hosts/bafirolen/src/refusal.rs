//! Why an operation gave nothing.

use crate::Remedy;
use core::error::Error;
use core::fmt;

/// The one list of refusals: number, variant and words. A variant with a
/// position in braces holds it; that of all others is 0.
macro_rules! refusals {
    ($($number:literal $variant:ident $({ $position:ident })? $text:literal,)*) => {
        /// Why an operation gave nothing: of all refusals that apply, the
        /// first in the operation's order of tests. What was lent is as it
        /// was.
        ///
        /// Each has a number, which is the same in every language and in the
        /// documents of the format, and words. [`remedy`](Refusal::remedy)
        /// says what a caller does.
        ///
        /// ```
        /// use bafirolen::{find_value, Refusal};
        ///
        /// // A context section that breaks off after its first byte.
        /// let refusal = find_value(&[0], 0, b"lang").unwrap_err();
        /// assert_eq!(refusal, Refusal::Shortage { position: 2 });
        /// assert_eq!(refusal.to_string(), "refusal 2: the message does not reach position 2");
        /// ```
        #[derive(Clone, Copy, Debug, PartialEq, Eq, Hash)]
        #[non_exhaustive]
        pub enum Refusal {
            $(
                #[doc = concat!($number, ": ", $text, ".")]
                $variant $({
                    /// How many bytes the message would have to have.
                    $position: u64,
                })?,
            )*
            /// A number that is not among the above, or one of them with a
            /// position where it has none. It comes from an archive of
            /// another version than [`VERSION`](crate::VERSION), or from a
            /// caller's own [`from_number`](Refusal::from_number); never from
            /// the archive that this wrapper was made for.
            Unlisted {
                /// The number.
                number: u32,
                /// The position that came with it.
                position: u64,
            },
        }

        impl Refusal {
            /// The refusal's number, 1 to 40 where it is listed.
            #[must_use]
            pub const fn number(&self) -> u32 {
                match self {
                    $(Refusal::$variant { .. } => $number,)*
                    Refusal::Unlisted { number, .. } => *number,
                }
            }

            /// What the number says, in the words of the project's table of
            /// refusals.
            #[must_use]
            pub const fn text(&self) -> &'static str {
                match self {
                    $(Refusal::$variant { .. } => $text,)*
                    Refusal::Unlisted { .. } => "a refusal of another version of the archive",
                }
            }

            /// The refusal of a number and a position, of which both are kept:
            /// [`number`](Refusal::number) and [`position`](Refusal::position)
            /// give them back, whatever they are. 0 is no refusal, and gives
            /// `Unlisted`.
            #[must_use]
            pub const fn from_number(number: u32, position: u64) -> Refusal {
                match (number, position) {
                    $(
                        ($number, refusals!(@position $($position)?)) => {
                            Refusal::$variant $({ $position })?
                        }
                    )*
                    _ => Refusal::Unlisted { number, position },
                }
            }
        }
    };
    (@position) => {
        0
    };
    (@position $position:ident) => {
        $position
    };
}

refusals! {
    1 NotAddressable "message length or start above 4,294,967,295",
    2 Shortage { position } "shortage: the message does not reach the position given",
    3 UnknownVersion "version not 01 or 02",
    4 OtherVersion "not the version asked for",
    5 MessageType "type not 80 (writing version 2: not 0)",
    6 UnknownSuite "unknown suite",
    7 SuiteOfOtherVersion "suite of the other version",
    8 CountInEmptyContext "context section of length 2 with a count that is not 0",
    9 NoCountInContext "context section of another length above 0 with a count of 0",
    10 KeyNotUtf8 "key not UTF-8",
    11 ValueNotUtf8 "value not UTF-8",
    12 KeySeenBefore "key seen before",
    13 PairsTooLong "the pairs take 65,534 bytes or more",
    14 ContextLength "the pairs end before the section does",
    15 TooManyKeys "key count above the maximum",
    16 ProviderIdNotUtf8 "provider ID not UTF-8",
    17 ContentType "content type not 01 or 02",
    18 ReservedBytes "reserved bytes not 0",
    19 IvLength "IV length not the suite's (writing a body of version 2: not 0; a frame: not 12)",
    20 FrameLength "frame length against content type, or frames with length 0",
    21 OldEmptyContext "the old form of an empty context",
    22 PairTableTooShort "pair table too short",
    23 KeyTableTooShort "key or frame table too short",
    24 IdLength "message ID of another length",
    25 SuiteDataLength "suite data of another length",
    26 TableOrPlace "table not in fours or sixes, or a place outside the text",
    27 CountOrPartTooLong "more than 65,535 items, or a part of a pair or key above 65,535 bytes",
    28 OutputTooShort "output too short",
    29 NotFound "no pair has the key",
    30 TagLength "tag not 16 bytes",
    31 RequiredTableOrPlace "required table of odd length, or a place outside its text",
    32 PastSection "part of a context section that would end past the section",
    33 PairInOldForm "a pair in a body marked as of the old form",
    34 SequenceNumber "sequence number of a frame not the next one",
    35 FinalContentTooLong "content of the final frame longer than the frame length",
    36 NoFrame "no frame to write",
    37 RegularContentLength "content of a frame before the last not of the frame length",
    38 NoEncryptedDataKey "no encrypted data key",
    39 ForbiddenByPolicy "suite forbidden by the policy",
    40 NoKeyRemains "no encrypted data key would remain",
}

impl Refusal {
    /// For a shortage, how many bytes the message would have to have; 0 for
    /// all others that are listed.
    #[must_use]
    pub const fn position(&self) -> u64 {
        match self {
            Refusal::Shortage { position } | Refusal::Unlisted { position, .. } => *position,
            _ => 0,
        }
    }

    /// What a caller does about it.
    pub const fn remedy(&self) -> Remedy {
        match self {
            Refusal::Shortage { position } => Remedy::Wait {
                position: *position,
            },
            Refusal::PairTableTooShort | Refusal::KeyTableTooShort | Refusal::OutputTooShort => {
                Remedy::LendMore
            }
            _ => Remedy::Reject,
        }
    }

    /// Ok where the number of a record is 0.
    #[inline]
    pub(crate) fn test(number: u64, position: u64) -> Result<(), Refusal> {
        if number == 0 {
            return Ok(());
        }
        Err(Refusal::of_record(number, position))
    }

    #[cold]
    fn of_record(number: u64, position: u64) -> Refusal {
        // A number of more than 32 bits is no refusal either.
        let number = u32::try_from(number).unwrap_or(u32::MAX);
        Refusal::from_number(number, position)
    }
}

impl fmt::Display for Refusal {
    fn fmt(&self, f: &mut fmt::Formatter<'_>) -> fmt::Result {
        write!(f, "refusal {}: ", self.number())?;
        match self {
            Refusal::Shortage { position } => {
                write!(f, "the message does not reach position {position}")
            }
            _ => f.write_str(self.text()),
        }
    }
}

impl Error for Refusal {}
