//! The commitment policies that stations agree on: which suites a body may
//! have to be read, and which to be written.

use crate::refusal::{Refusal, FORBIDDEN_BY_POLICY};
use crate::suites::Suite;

/// A policy, or none. The first half of a name is about writing, the second
/// about reading: what is done with suites that commit to their key.
#[derive(Clone, Copy, Debug, PartialEq, Eq)]
pub enum Policy {
    None,
    ForbidEncryptAllowDecrypt,
    RequireEncryptAllowDecrypt,
    RequireEncryptRequireDecrypt,
}

impl From<u32> for Policy {
    /// By its number. One that no policy has stands for the policy that reads
    /// least.
    fn from(number: u32) -> Policy {
        match number {
            0 => Policy::None,
            1 => Policy::ForbidEncryptAllowDecrypt,
            2 => Policy::RequireEncryptAllowDecrypt,
            _ => Policy::RequireEncryptRequireDecrypt,
        }
    }
}

impl Policy {
    /// Refusal 39 of a body that is read.
    pub(crate) fn test_read(self, suite: Suite) -> Result<(), Refusal> {
        match self {
            Policy::RequireEncryptRequireDecrypt => allow(suite.commits()),
            _ => Ok(()),
        }
    }

    /// Refusal 39 of a body that is to be written.
    pub(crate) fn test_write(self, suite: Suite) -> Result<(), Refusal> {
        match self {
            Policy::None => Ok(()),
            Policy::ForbidEncryptAllowDecrypt => allow(!suite.commits()),
            Policy::RequireEncryptAllowDecrypt | Policy::RequireEncryptRequireDecrypt => {
                allow(suite.commits())
            }
        }
    }
}

fn allow(allowed: bool) -> Result<(), Refusal> {
    if allowed {
        Ok(())
    } else {
        Err(Refusal::of(FORBIDDEN_BY_POLICY))
    }
}
