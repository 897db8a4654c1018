//! The keys met so far, for the test that keys differ.

use std::collections::HashSet;

/// Up to this many keys are compared one by one, which takes no allocation
/// and beats hashing; a context rarely has more.
const FEW: usize = 8;

/// Keys as parts of the bytes they were met in.
pub struct Seen<'a> {
    few: [&'a [u8]; FEW],
    count: usize,
    many: HashSet<&'a [u8]>,
}

impl<'a> Seen<'a> {
    pub fn new() -> Seen<'a> {
        Seen {
            few: [&[]; FEW],
            count: 0,
            many: HashSet::new(),
        }
    }

    /// Takes a key in; false if an equal one was taken in before.
    pub fn insert(&mut self, key: &'a [u8]) -> bool {
        if self.count < FEW {
            if self.few[..self.count].contains(&key) {
                return false;
            }
            self.few[self.count] = key;
            self.count += 1;
            return true;
        }
        if self.many.is_empty() {
            self.many.extend(self.few);
        }
        self.many.insert(key)
    }
}

impl Default for Seen<'_> {
    fn default() -> Self {
        Seen::new()
    }
}
