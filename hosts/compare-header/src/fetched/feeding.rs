//! A message fed to a request: by ones, by what is wanted, and at random.

use super::operations::Asked;
use super::promised::{Promised, Run};
use super::seen::Seen;
use crate::reads::shown_at;
use generator::random::Random;

/// Messages of up to so many bytes are also fed by ones, which asks once for
/// each of them.
pub const BY_ONES: usize = 1_500;

/// What was fetched of a message. Behind it stand other bytes than the
/// message's, so that who looks there doesn't see what will come.
struct Held<'a> {
    message: &'a [u8],
    bytes: Vec<u8>,
    length: usize,
}

impl<'a> Held<'a> {
    fn new(message: &'a [u8]) -> Held<'a> {
        Held {
            message,
            bytes: message.iter().map(|byte| !byte).collect(),
            length: 0,
        }
    }

    /// The first bytes of the message, no fewer than before.
    fn front(&mut self, length: usize) -> &[u8] {
        let fetched = self.length..length;
        self.bytes[fetched.clone()].copy_from_slice(&self.message[fetched]);
        self.length = length;
        &self.bytes[..length]
    }
}

/// One message that is fed to one request.
struct Feeding<'a, A: Asked> {
    asked: &'a A,
    message: &'a [u8],
    start: u64,
    held: Held<'a>,
    promised: Promised<A::Told>,
    runs: u64,
}

impl<'a, A: Asked> Feeding<'a, A> {
    fn new(asked: &'a A, message: &'a [u8], start: u64) -> Self {
        Feeding {
            asked,
            message,
            start,
            held: Held::new(message),
            promised: Promised::default(),
            runs: 0,
        }
    }

    /// Asks of so many bytes; answers the position that is wanted.
    fn ask(&mut self, length: usize) -> Option<u64> {
        let run = self.asked.ask(self.held.front(length), self.start);
        let wanted = run.wanted();
        let shown = || format!("{:?}, {}", self.asked, shown_at(self.message, self.start));
        self.promised.next(length, run, shown);
        self.runs += 1;
        wanted
    }

    /// Answers how many runs there were.
    fn end(self, whole: &Run<A::Told>) -> u64 {
        let shown = || format!("{:?}, {}", self.asked, shown_at(self.message, self.start));
        self.promised.end(whole, shown);
        self.runs
    }

    /// Every front. Answers the length of the first that is not short.
    fn by_ones(&mut self) -> Option<usize> {
        let mut needed = None;
        for length in 0..=self.message.len() {
            if self.ask(length).is_none() && needed.is_none() {
                needed = Some(length);
            }
        }
        needed
    }

    /// From so many bytes on up to each position that is wanted, until none is,
    /// or the message ends before it. Answers the length that was not short,
    /// and how many rounds it took.
    fn by_wants(&mut self, from: usize) -> (Option<usize>, u64) {
        let (mut length, mut rounds) = (from, 0);
        while let Some(position) = self.ask(length) {
            rounds += 1;
            if position > self.message.len() as u64 {
                return (None, rounds);
            }
            length = position as usize;
        }
        (Some(length), rounds)
    }

    /// From any length on, mostly by a few bytes.
    fn at_random(&mut self, random: &mut Random) {
        let all = self.message.len();
        let mut length = match random.below(2) {
            0 => 0,
            _ => random.index(all + 1),
        };
        self.ask(length);
        while length < all {
            length = (length + 1 + random.length(all / 4)).min(all);
            self.ask(length);
        }
    }
}

/// What a message that was fed came to.
pub struct Fed<T> {
    /// The answer to the whole of it.
    pub whole: Run<T>,
    /// The rounds by what is wanted, from no byte on.
    pub rounds: u64,
}

/// Feeds messages, and counts what came about.
pub struct Feeder {
    random: Random,
    pub seen: Seen,
}

impl Feeder {
    pub fn new(seed: u64) -> Feeder {
        Feeder {
            random: Random::new(seed),
            seen: Seen::default(),
        }
    }

    /// Feeds a message by what is wanted, from no byte on and from any length,
    /// at random, and by ones unless it is long. The last answer is always that
    /// to the whole. What is wanted leads to the shortest front that is not
    /// short, and where that is accepted, it ends with what was accepted.
    pub fn feed<A: Asked>(
        &mut self,
        operation: &'static str,
        asked: &A,
        message: &[u8],
        start: u64,
    ) -> Fed<A::Told> {
        let (random, seen) = (&mut self.random, &mut self.seen);
        let shown = || format!("{asked:?}, {}", shown_at(message, start));
        let whole = asked.ask(message, start);
        let new = || Feeding::new(asked, message, start);
        let mut feeding = new();
        let (needed, rounds) = feeding.by_wants(0);
        seen.by_wants += feeding.end(&whole);
        let mut feeding = new();
        let (_, others) = feeding.by_wants(random.index(message.len() + 1));
        seen.by_wants += feeding.end(&whole);
        let mut feeding = new();
        feeding.at_random(random);
        seen.at_random += feeding.end(&whole);
        if message.len() <= BY_ONES {
            let mut feeding = new();
            assert_eq!(feeding.by_ones(), needed, "{}", shown());
            seen.by_ones += feeding.end(&whole);
        }
        let ended = whole.tail.is_none_or(|tail| needed == Some(tail as usize));
        assert!(ended, "{needed:?}, {}", shown());
        let (taken, most) = (rounds.max(others), asked.most_rounds(message, start));
        assert!(taken <= most, "{taken} rounds, {}", shown());
        seen.message(operation, whole.number, (message, start), needed);
        seen.rounds(rounds, most);
        Fed { whole, rounds }
    }
}
