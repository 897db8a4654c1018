//! The refusals: a number, and for a shortage the position wanted.

/// Why an operation gave nothing. `position` is 0 except for a shortage.
#[derive(Clone, Copy, Debug, PartialEq, Eq, Hash)]
pub struct Refusal {
    pub number: u32,
    pub position: u64,
}

impl Refusal {
    /// A refusal that names no position.
    pub const fn of(number: u32) -> Refusal {
        Refusal {
            number,
            position: 0,
        }
    }

    /// Refusal 2: the message would have to reach `position`.
    pub const fn shortage(position: u64) -> Refusal {
        Refusal {
            number: SHORTAGE,
            position,
        }
    }
}

pub const TOO_LARGE: u32 = 1;
pub const SHORTAGE: u32 = 2;
pub const VERSION: u32 = 3;
pub const OTHER_VERSION: u32 = 4;
pub const TYPE: u32 = 5;
pub const UNKNOWN_SUITE: u32 = 6;
pub const SUITE_OF_OTHER_VERSION: u32 = 7;
pub const COUNT_IN_EMPTY_SECTION: u32 = 8;
pub const NO_PAIRS_IN_SECTION: u32 = 9;
pub const KEY_NOT_UTF8: u32 = 10;
pub const VALUE_NOT_UTF8: u32 = 11;
pub const KEY_SEEN: u32 = 12;
pub const PAIRS_TOO_LONG: u32 = 13;
pub const SECTION_END: u32 = 14;
pub const ABOVE_MAXIMUM: u32 = 15;
pub const PROVIDER_NOT_UTF8: u32 = 16;
pub const CONTENT_TYPE: u32 = 17;
pub const RESERVED: u32 = 18;
pub const IV_LENGTH: u32 = 19;
pub const FRAME_LENGTH: u32 = 20;
pub const OLD_FORM: u32 = 21;
pub const PAIR_TABLE: u32 = 22;
/// Of a table of keys, or of frames.
pub const KEY_TABLE: u32 = 23;
pub const ID_LENGTH: u32 = 24;
pub const SUITE_DATA: u32 = 25;
pub const PLACES: u32 = 26;
pub const TOO_MANY_OR_LONG: u32 = 27;
pub const OUTPUT: u32 = 28;
pub const NOT_FOUND: u32 = 29;
pub const TAG_LENGTH: u32 = 30;
pub const REQUIRED_PLACES: u32 = 31;
pub const PAST_SECTION: u32 = 32;
pub const PAIR_IN_OLD_FORM: u32 = 33;
pub const SEQUENCE_NUMBER: u32 = 34;
pub const FINAL_CONTENT: u32 = 35;
pub const NO_FRAME: u32 = 36;
pub const REGULAR_CONTENT: u32 = 37;
pub const NO_ENCRYPTED_DATA_KEY: u32 = 38;
pub const FORBIDDEN_BY_POLICY: u32 = 39;
pub const NO_KEY_REMAINS: u32 = 40;

/// The greatest message length and start any reader takes. Below it every
/// position is far from overflow, and every place fits a table entry.
pub const GREATEST: u64 = u32::MAX as u64;

/// Refusal 1, which every reader tests before it looks at a byte.
pub(crate) fn test_sizes(message: &[u8], start: u64) -> Result<(), Refusal> {
    if message.len() as u64 > GREATEST || start > GREATEST {
        return Err(Refusal::of(TOO_LARGE));
    }
    Ok(())
}
