//! Commitment policies, and the numbers that say them across the boundary.

/// A commitment policy, by the name that the AWS Encryption SDK gives it. The
/// suites of version 2 commit a message to its data key, so that no other key
/// decrypts it; those of version 1 do not. A policy says which versions of a
/// body are read, and which are written:
///
/// | policy | reads versions | writes versions | stations |
/// |---|---|---|---|
/// | none | 1 and 2 | 1 and 2 | |
/// | `ForbidEncryptAllowDecrypt` | 1 and 2 | 1 | of agreement 3 |
/// | `RequireEncryptAllowDecrypt` | 1 and 2 | 2 | of agreement 4: this, |
/// | `RequireEncryptRequireDecrypt` | 2 | 2 | or this |
///
/// A version that it forbids is refused by 39
/// ([`ForbiddenByPolicy`](crate::Refusal::ForbiddenByPolicy)), right after 7: in
/// reading before the message ID is read, so that a message that breaks off
/// there is not waited for. In all else the answer is the one without a policy.
///
/// A body is read under a policy that its
/// [`Request`](crate::Request::under) names, and written or measured under one
/// that its [`Draft`](crate::Draft::under) names; both name none by default. No
/// other function has a policy: sections, records, frames and the listing take
/// both versions.
///
/// ```
/// use bafirolen::{header_body_to_vec, read_header_body};
/// use bafirolen::{Draft, Numbers, Policy, Refusal, Request, FRAMED};
///
/// # fn main() -> Result<(), Refusal> {
/// let keys = [0, 2, 2, 1, 3, 3]; // "p1", "a" and AA BB CC
/// let draft = Draft::new(Numbers::version_1(0x0178, FRAMED, 4_096), &[7; 16])
///     .with_tables(b"p1a\xAA\xBB\xCC", &[], &keys);
///
/// // Version 1 is what stations of agreement 3 write, and those of agreement 4 don't.
/// let message = header_body_to_vec(&draft.under(Policy::ForbidEncryptAllowDecrypt))?;
/// let refused = header_body_to_vec(&draft.under(Policy::RequireEncryptAllowDecrypt));
/// assert_eq!(refused, Err(Refusal::ForbiddenByPolicy));
///
/// // These read it nevertheless, unless their policy requires version 2 there too.
/// let tail = |policy| {
///     let request = Request::default().under(policy);
///     read_header_body(&message, 0, request, &mut [], &mut [0; 6]).map(|body| body.tail)
/// };
/// assert_eq!(tail(Policy::RequireEncryptAllowDecrypt), Ok(46));
/// let refused = tail(Policy::RequireEncryptRequireDecrypt);
/// assert_eq!(refused, Err(Refusal::ForbiddenByPolicy));
/// # Ok(())
/// # }
/// ```
#[derive(Clone, Copy, Debug, PartialEq, Eq, Hash)]
pub enum Policy {
    /// FORBID_ENCRYPT_ALLOW_DECRYPT: reads both versions, writes version 1.
    ForbidEncryptAllowDecrypt,
    /// REQUIRE_ENCRYPT_ALLOW_DECRYPT: reads both versions, writes version 2.
    RequireEncryptAllowDecrypt,
    /// REQUIRE_ENCRYPT_REQUIRE_DECRYPT: reads and writes version 2.
    RequireEncryptRequireDecrypt,
}

impl Policy {
    #[inline]
    pub(crate) fn number(self) -> u32 {
        match self {
            Policy::ForbidEncryptAllowDecrypt => bafirolen_sys::FORBID_ENCRYPT_ALLOW_DECRYPT,
            Policy::RequireEncryptAllowDecrypt => bafirolen_sys::REQUIRE_ENCRYPT_ALLOW_DECRYPT,
            Policy::RequireEncryptRequireDecrypt => bafirolen_sys::REQUIRE_ENCRYPT_REQUIRE_DECRYPT,
        }
    }
}
