//! Copies of what is lent, with entries behind it that nothing may touch.

use std::fmt::Debug;

const GUARDS: usize = 8;

/// A copy of lent bytes or numbers between which and the guards there is
/// nothing, so that a store past the end is seen.
pub struct Guarded<T> {
    entries: Vec<T>,
    len: usize,
}

impl<T: Copy + PartialEq + Debug + From<u8>> Guarded<T> {
    pub fn new(lent: &[T]) -> Guarded<T> {
        let mut entries = Vec::with_capacity(lent.len() + GUARDS);
        entries.extend_from_slice(lent);
        entries.extend([T::from(0xA5); GUARDS]);
        Guarded {
            entries,
            len: lent.len(),
        }
    }

    pub fn lend(&mut self) -> &mut [T] {
        &mut self.entries[..self.len]
    }

    /// The entries are these now, and the guards what they were.
    pub fn assert_holds(&self, wanted: &[T], what: &str) {
        assert!(self.entries[..self.len] == *wanted, "{what}: entries");
        assert!(
            self.entries[self.len..] == [T::from(0xA5); GUARDS],
            "{what}: entries behind"
        );
    }
}
