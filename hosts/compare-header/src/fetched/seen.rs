//! What came about while messages were fed.

use crate::{compared, Coverage};
use std::collections::BTreeSet;

#[derive(Default)]
pub struct Seen {
    /// Answers by operation that fewer bytes than the whole message brought
    /// about, and shortages of the whole.
    coverage: Coverage,
    /// The numbers among these.
    early: BTreeSet<u32>,
    /// Messages that were needed whole.
    to_the_end: u64,
    /// Messages read from their first byte, from a later one, and from beyond
    /// their end.
    starts: [u64; 3],
    /// Rounds by what is wanted, from no byte on, and messages that took just
    /// as many of them as may be.
    rounds: u64,
    fullest: u64,
    /// Runs, by the way in which messages were fed.
    pub(super) by_ones: u64,
    pub(super) by_wants: u64,
    pub(super) at_random: u64,
}

impl Seen {
    /// A message, and the length that was not short.
    pub(super) fn message(
        &mut self,
        operation: &'static str,
        number: u32,
        (message, start): (&[u8], u64),
        needed: Option<usize>,
    ) {
        assert_eq!(needed.is_none(), number == 2);
        match needed {
            Some(length) if length == message.len() => self.to_the_end += 1,
            _ => {
                self.coverage.count(operation, number);
                self.early.insert(number);
            }
        }
        let place = match start {
            0 => 0,
            _ if start <= message.len() as u64 => 1,
            _ => 2,
        };
        self.starts[place] += 1;
    }

    pub(super) fn rounds(&mut self, rounds: u64, most: u64) {
        self.rounds += rounds;
        self.fullest += u64::from(rounds == most);
    }

    /// How many messages were fed.
    pub fn messages(&self) -> u64 {
        self.starts.iter().sum()
    }

    /// Just these numbers came about before a message was there whole, 0 being
    /// acceptance; and 2, where the whole was short.
    pub fn assert_early(&self, numbers: &[u32]) {
        assert_eq!(self.early, numbers.iter().copied().collect());
    }

    /// Says how many runs there were.
    pub fn report(&self, what: &str) {
        compared(self.by_ones, &format!("{what} fed by ones"));
        self.report_long(what);
    }

    /// The same where no message is fed by ones.
    pub fn report_long(&self, what: &str) {
        assert!(self.rounds > 0 && self.to_the_end > 0, "{what}");
        compared(self.by_wants, &format!("{what} fed by what is wanted"));
        compared(self.at_random, &format!("{what} fed at random"));
    }

    /// The same of these operations: each refusal that they list came about
    /// before the message was there whole, and so did acceptance; from each
    /// kind of start; and some message took as many rounds as may be.
    pub fn assert_complete<'a>(&self, what: &str, operations: impl IntoIterator<Item = &'a str>) {
        self.coverage.print();
        self.coverage.assert_complete(operations);
        assert!(self.starts.iter().all(|&count| count > 0), "{what}");
        assert!(self.fullest > 0, "{what}");
        self.report(what);
    }
}
