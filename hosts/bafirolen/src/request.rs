//! What a reader is asked for, and the numbers that say it across the
//! boundary.

use crate::Policy;

/// Whether 00 02 00 00, the old form of an empty context, is accepted.
#[derive(Clone, Copy, Debug, Default, PartialEq, Eq, Hash)]
pub enum Mode {
    /// It is accepted, beside today's 00 00, and marks a body as
    /// [`Form::Old`](crate::Form::Old).
    #[default]
    Tolerant,
    /// It is refused by 21.
    Strict,
}

/// Which versions a body reader takes. A reader of one version does not test
/// whether frame length and content type agree (20).
#[derive(Clone, Copy, Debug, Default, PartialEq, Eq, Hash)]
pub enum Which {
    /// Versions 1 and 2. This reader alone tests the frame length (20).
    #[default]
    Either,
    /// Version 1; version 2 is refused by 4. To have the test of the frame
    /// length as well, ask for either version and then compare
    /// `numbers.version`.
    V1Only,
    /// Version 2; version 1 is refused by 4.
    V2Only,
}

/// A request to read a body. By default either version is taken, tolerantly,
/// with any count of keys above 0 and under no policy.
///
/// ```
/// use bafirolen::{Mode, Policy, Request, Which};
///
/// let request = Request::default().only(Which::V2Only).strict().at_most(3);
/// assert_eq!(request.which, Which::V2Only);
/// assert_eq!(request.mode, Mode::Strict);
/// assert_eq!(request.max, Some(3));
/// assert_eq!(request.policy, None);
///
/// let policy = Policy::RequireEncryptRequireDecrypt;
/// assert_eq!(request.under(policy).policy, Some(policy));
/// ```
#[derive(Clone, Copy, Debug, Default, PartialEq, Eq, Hash)]
#[non_exhaustive]
#[must_use]
pub struct Request {
    /// Which versions are taken.
    pub which: Which,
    /// Whether the old form of an empty context is accepted.
    pub mode: Mode,
    /// The greatest count of keys that is taken; `None`: any above 0.
    pub max: Option<u64>,
    /// The commitment policy that the body is read under; `None`: no version is
    /// refused by 39.
    pub policy: Option<Policy>,
}

impl Request {
    /// The default, as a constant.
    #[inline]
    pub const fn new() -> Request {
        Request {
            which: Which::Either,
            mode: Mode::Tolerant,
            max: None,
            policy: None,
        }
    }

    /// The same request, of these versions.
    #[inline]
    pub const fn only(mut self, which: Which) -> Request {
        self.which = which;
        self
    }

    /// The same request, which refuses the old form of an empty context.
    #[inline]
    pub const fn strict(mut self) -> Request {
        self.mode = Mode::Strict;
        self
    }

    /// The same request, of at most that many keys. At most 0 takes no body:
    /// each has a key, or is refused by 38.
    #[inline]
    pub const fn at_most(mut self, keys: u64) -> Request {
        self.max = Some(keys);
        self
    }

    /// The same request, under this commitment policy: a version that it does
    /// not read is refused by 39. To name none again, set
    /// [`policy`](Request::policy) to `None`.
    #[inline]
    pub const fn under(mut self, policy: Policy) -> Request {
        self.policy = Some(policy);
        self
    }
}

impl Mode {
    #[inline]
    pub(crate) fn asked(self) -> u32 {
        match self {
            Mode::Tolerant => 0,
            Mode::Strict => 1,
        }
    }
}

impl Which {
    #[inline]
    pub(crate) fn asked(self) -> u32 {
        match self {
            Which::Either => 0,
            Which::V1Only => 1,
            Which::V2Only => 2,
        }
    }
}

/// Whether there is a maximum, and the maximum.
#[inline]
pub(crate) fn max_asked(max: Option<u64>) -> (u32, u64) {
    (u32::from(max.is_some()), max.unwrap_or(0))
}
