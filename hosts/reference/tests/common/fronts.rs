//! Fronts of one message, every two of them.

use super::report;
use reference::Refusal;
use std::fmt::Debug;

/// The answer to a front, and the tables or the output afterwards.
pub type Run<T> = (Result<T, Refusal>, Vec<u32>);

/// The position of a shortage.
fn wanted<T>(run: &Run<T>) -> Option<u64> {
    let refusal = run.0.as_ref().err()?;
    (refusal.number == 2).then_some(refusal.position)
}

/// Runs on `short` bytes and on `long`, which are no fewer.
fn two<T: PartialEq + Debug>(runs: &[Run<T>], short: usize, long: usize) {
    let kept = match (wanted(&runs[short]), wanted(&runs[long])) {
        // It accepts, or refuses other than by 2.
        (None, _) => runs[short] == runs[long],
        (Some(p), _) if p <= short as u64 => false,
        (Some(p), _) if (long as u64) < p => runs[short] == runs[long],
        (Some(p), other) => other.is_none_or(|other| other > p),
    };
    let (first, second) = (&runs[short], &runs[long]);
    assert!(kept, "{short} and {long}: {first:?}, {second:?}");
}

/// The rounds from so many bytes on, up to an answer that is no shortage, or to
/// a position that the message doesn't reach.
fn rounds<T>(runs: &[Run<T>], from: usize) -> u64 {
    let fetched = |run: &&Run<T>| runs.get(wanted(run)? as usize);
    let asked = std::iter::successors(Some(&runs[from]), fetched);
    asked.filter(|run| wanted(run).is_some()).count() as u64
}

/// How many fronts there were, and what became of the whole messages.
#[derive(Default)]
pub struct Held {
    fronts: u64,
    accepted: u64,
    short: u64,
    refused: u64,
}

impl Held {
    /// Every two fronts of a message. Where the whole is accepted, nothing
    /// behind its tail is wanted. Answers the rounds from no byte on, which
    /// are the most.
    pub fn message<T: PartialEq + Debug>(
        &mut self,
        message: &[u8],
        tail: impl Fn(&T) -> u64,
        ask: impl Fn(&[u8]) -> Run<T>,
    ) -> u64 {
        let runs: Vec<Run<T>> = (0..=message.len()).map(|n| ask(&message[..n])).collect();
        let whole = &runs[message.len()];
        let end = whole.0.as_ref().map_or(u64::MAX, tail);
        for (short, run) in runs.iter().enumerate() {
            (short..runs.len()).for_each(|long| two(&runs, short, long));
            assert!(wanted(run).is_none_or(|p| p <= end), "{message:02X?}");
        }
        // Only now is it sure that each round leads to more bytes.
        let most = rounds(&runs, 0);
        assert!((0..runs.len()).all(|from| rounds(&runs, from) <= most));
        self.fronts += runs.len() as u64;
        match (&whole.0, wanted(whole)) {
            (Ok(_), _) => self.accepted += 1,
            (_, Some(_)) => self.short += 1,
            _ => self.refused += 1,
        }
        most
    }

    pub fn report(self, name: &str) {
        let kinds = [self.accepted, self.short, self.refused];
        assert!(kinds.iter().all(|&count| count > 0), "{name}: {kinds:?}");
        report(name, self.fronts);
    }
}
