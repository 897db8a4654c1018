//! What is lent to be read is the same afterwards.

use std::cell::Cell;
use std::hint::black_box;
use std::mem::size_of_val;

/// Parts of up to so many bytes are compared after every call.
pub const SHORT: usize = 4_096;

/// Longer ones of up to so many, once in `EVERY` times: a copy may take as long
/// as the call. Some tests lend 4 GiB, of which none is made.
pub const LONG: usize = 1 << 20;
/// A prime, so that where a request lends several times each gets its turn.
pub const EVERY: usize = 17;

thread_local! {
    static CALLS: Cell<usize> = const { Cell::new(0) };
}

/// Parts that are lent to be read, with copies of those that are compared.
pub struct Kept<'a, T, const N: usize> {
    parts: [(&'a [T], Option<Vec<T>>); N],
}

impl<'a, T: Clone + PartialEq, const N: usize> Kept<'a, T, N> {
    pub fn new(parts: [&'a [T]; N]) -> Self {
        let call = CALLS.with(|calls| calls.replace((calls.get() + 1) % EVERY));
        let longest = if call == 0 { LONG } else { SHORT };
        let copied = |part: &[T]| size_of_val(part) <= longest;
        Kept {
            parts: parts.map(|part| (part, copied(part).then(|| part.to_vec()))),
        }
    }

    /// To be called once the operation has returned.
    pub fn assert_unchanged(&self, what: &str) {
        for (nth, (part, copy)) in self.parts.iter().enumerate() {
            // Behind a shared slice the compiler may expect what was there.
            let part = black_box(*part);
            let same = copy.as_ref().is_none_or(|copy| part == copy);
            assert!(same, "{what}: part {nth} was lent to be read");
        }
    }
}
