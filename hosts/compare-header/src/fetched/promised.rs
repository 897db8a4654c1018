//! What a run on the front of a message promises of those on more of it.

use std::fmt::Debug;

/// What a run answered and left.
#[derive(Debug, PartialEq, Eq)]
pub struct Run<T> {
    /// 0 where it accepted.
    pub number: u32,
    pub position: u64,
    /// Where that which was accepted ends.
    pub tail: Option<u64>,
    /// All of it: the record, and the tables or the output afterwards.
    pub told: T,
}

impl<T> Run<T> {
    /// The position that a shortage wants.
    pub fn wanted(&self) -> Option<u64> {
        (self.number == 2).then_some(self.position)
    }
}

/// The last of some runs on fronts that only grew. It stands for all of them:
/// what they said is either the same or was to be different by now.
#[derive(Debug)]
pub struct Promised<T> {
    last: Option<Run<T>>,
    /// The farthest position that was wanted.
    farthest: u64,
}

impl<T> Default for Promised<T> {
    fn default() -> Self {
        Promised {
            last: None,
            farthest: 0,
        }
    }
}

impl<T: PartialEq + Debug> Promised<T> {
    /// The next run, on a front of `held` bytes. A position that it wants lies
    /// above these. Where the run before accepted, or refused other than by 2,
    /// this gives the same; where that wanted a position, this wants it too if
    /// it has fewer bytes, and never that or less if it has them.
    pub fn next(&mut self, held: usize, run: Run<T>, shown: impl Fn() -> String) {
        let held = held as u64;
        if let Some(position) = run.wanted() {
            assert!(position > held, "{held}: {run:?}, {}", shown());
            self.farthest = self.farthest.max(position);
        }
        if let Some(before) = &self.last {
            let kept = match before.wanted() {
                Some(wanted) if held >= wanted => run.wanted().is_none_or(|p| p > wanted),
                _ => run == *before,
            };
            assert!(kept, "{held}: {run:?} behind {before:?}, {}", shown());
        }
        self.last = Some(run);
    }

    /// The last run answered what the whole message is answered, and where that
    /// is accepted nothing behind its tail was wanted.
    pub fn end(self, whole: &Run<T>, shown: impl Fn() -> String) {
        let (last, farthest) = (self.last, self.farthest);
        assert!(
            last.as_ref() == Some(whole),
            "{last:?} against {whole:?}, {}",
            shown()
        );
        if let Some(tail) = whole.tail {
            assert!(farthest <= tail, "{farthest}, {whole:?}, {}", shown());
        }
    }
}
