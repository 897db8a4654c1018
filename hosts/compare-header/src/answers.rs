//! The answers that a test met, held against those that it names.

use crate::compared;
use crate::expected::as_expected;
use crate::numbers::Answer;
use generator::Expected;
use std::collections::BTreeMap;

/// How often each number was answered, 0 being acceptance.
#[derive(Default)]
pub struct Answers(BTreeMap<u32, u64>);

impl Answers {
    /// How many answers there were.
    pub fn total(&self) -> u64 {
        self.0.values().sum()
    }

    /// An answer that has to be this number, which is no shortage.
    pub fn met<T>(&mut self, answer: &Answer<T>, number: u32) {
        self.expected(answer, number, 0);
    }

    /// An answer that has to be a shortage at this position.
    pub fn short<T>(&mut self, answer: &Answer<T>, position: u64) {
        self.expected(answer, 2, position);
    }

    /// An answer that has to be this number with this position.
    pub fn expected<T>(&mut self, answer: &Answer<T>, number: u32, position: u64) {
        let expected = match number {
            0 => Expected::Accepted,
            _ => Expected::Refused(number, position),
        };
        as_expected(self.total(), answer, expected);
        self.told(number);
    }

    /// A number that the test has held against what it wants by itself.
    pub fn told(&mut self, number: u32) {
        *self.0.entry(number).or_insert(0) += 1;
    }

    /// Each of these came about just so often, and no other did.
    pub fn assert_are(&self, what: &str, wanted: &[(u32, u64)]) {
        let wanted = wanted.iter().copied().filter(|&(_, count)| count > 0);
        assert_eq!(self.0, wanted.collect(), "{what}: answers and their counts");
        compared(self.total(), what);
    }
}
