//! Where a part lies.

/// Start and length of a part. An empty part starts where its bytes would.
#[derive(Clone, Copy, Debug, Default, PartialEq, Eq, Hash)]
pub struct Place {
    /// The place of its first byte, counted from that of the message or text.
    pub start: u64,
    /// How many bytes it has.
    pub len: u64,
}

impl Place {
    #[inline]
    pub(crate) fn new(start: u64, len: u64) -> Place {
        Place { start, len }
    }

    /// The part itself; `None` where it doesn't lie inside `bytes`.
    #[inline]
    #[must_use]
    pub fn within(self, bytes: &[u8]) -> Option<&[u8]> {
        let start = usize::try_from(self.start).ok()?;
        let end = usize::try_from(self.start.checked_add(self.len)?).ok()?;
        bytes.get(start..end)
    }

    /// The part at a place that a reader gave, which lies inside the message.
    #[inline]
    pub(crate) fn read(self, message: &[u8]) -> &[u8] {
        &message[self.start as usize..][..self.len as usize]
    }
}
