//! The algorithm suites a header can name.

/// A suite: its number as stored, and the message version it belongs to.
/// Version 2 suites commit to their key.
#[derive(Clone, Copy, Debug, PartialEq, Eq)]
pub struct Suite {
    pub number: u32,
    pub version: u32,
}

impl Suite {
    pub const IV_LEN: u64 = 12;
    pub const TAG_LEN: u64 = 16;
    /// Only version 2 stores a commit key.
    pub const COMMIT_LEN: u64 = 32;

    /// Whether it commits to its key.
    pub fn commits(self) -> bool {
        self.version == 2
    }

    /// The suite the two stored bytes name.
    pub fn from_stored(bytes: [u8; 2]) -> Option<Suite> {
        lookup(u32::from(u16::from_be_bytes(bytes)))
    }
}

const fn row(number: u32, version: u32) -> Suite {
    Suite { number, version }
}

/// Every suite there is.
pub const SUITES: [Suite; 11] = [
    row(0x0014, 1),
    row(0x0046, 1),
    row(0x0078, 1),
    row(0x0114, 1),
    row(0x0146, 1),
    row(0x0178, 1),
    row(0x0214, 1),
    row(0x0346, 1),
    row(0x0378, 1),
    row(0x0478, 2),
    row(0x0578, 2),
];

/// The suite of that number, if there is one.
pub fn lookup(number: u32) -> Option<Suite> {
    SUITES.iter().copied().find(|suite| suite.number == number)
}
