//! Two faults of a list at a time.

use super::apart::apart;
use compare_header::{compared, Coverage};
use generator::faults::{Draft, FrameDraft, FrameWriteDraft};
use generator::faults::{MendDraft, ReadDraft, RecordDraft, ReissueDraft, WriteDraft};
use std::collections::BTreeSet;

/// A fault: its name, which begins with the refusal's number, and how it is
/// planted.
pub struct Fault<D> {
    pub name: String,
    plant: Box<dyn Fn(&mut D)>,
}

fn fault<D>(name: &str, plant: impl Fn(&mut D) + 'static) -> Fault<D> {
    Fault {
        name: name.to_string(),
        plant: Box::new(plant),
    }
}

/// A fault of a message, or of what a reader is lent.
pub fn read(name: &str, plant: impl Fn(&mut ReadDraft) + 'static) -> Fault<ReadDraft> {
    fault(name, plant)
}

/// A fault of what a writer is lent.
pub fn write(name: &str, plant: impl Fn(&mut WriteDraft) + 'static) -> Fault<WriteDraft> {
    fault(name, plant)
}

/// A fault of an authentication record.
pub fn record(name: &str, plant: impl Fn(&mut RecordDraft) + 'static) -> Fault<RecordDraft> {
    fault(name, plant)
}

/// A fault of frames, or of what their reader is lent.
pub fn frame(name: &str, plant: impl Fn(&mut FrameDraft) + 'static) -> Fault<FrameDraft> {
    fault(name, plant)
}

/// A fault of what the writer of frames is lent.
pub fn frame_write(
    name: &str,
    plant: impl Fn(&mut FrameWriteDraft) + 'static,
) -> Fault<FrameWriteDraft> {
    fault(name, plant)
}

/// A fault of what is lent to mend a draft.
pub fn mend(name: &str, plant: impl Fn(&mut MendDraft) + 'static) -> Fault<MendDraft> {
    fault(name, plant)
}

/// A fault of what is lent to reissue a draft.
pub fn reissue(name: &str, plant: impl Fn(&mut ReissueDraft) + 'static) -> Fault<ReissueDraft> {
    fault(name, plant)
}

/// A fault of a message, where the message is a part of another request.
pub fn within<D: 'static>(
    read: Fault<ReadDraft>,
    part: impl Fn(&mut D) -> &mut ReadDraft + 'static,
) -> Fault<D> {
    let plant = read.plant;
    fault(&read.name, move |d| plant(part(d)))
}

/// The names of a list, in the order of tests.
pub type Names = Vec<String>;

/// An operation: a request that it accepts, and the faults of its list in the
/// order of tests.
pub struct Listed<D> {
    pub operation: &'static str,
    /// The version of the header, where it decides what is listed.
    pub version: Option<u32>,
    pub sound: D,
    pub list: Vec<Fault<D>>,
}

/// The number that a name begins with.
pub fn number_of(name: &str) -> u32 {
    let number = name.split(' ').next().expect("a name has a word");
    number.parse().expect("a name begins with a number")
}

impl<D: Draft> Fault<D> {
    fn planted(&self, draft: &D) -> D {
        let mut draft = draft.clone();
        (self.plant)(&mut draft);
        draft
    }

    /// What the documents have for a request in which this is the first fault.
    fn wanted(&self, draft: &D) -> (u32, u64) {
        match number_of(&self.name) {
            2 => (2, draft.position()),
            number => (number, 0),
        }
    }
}

impl<D: Draft> Listed<D> {
    pub fn names(&self) -> Names {
        self.list.iter().map(|fault| fault.name.clone()).collect()
    }

    /// Asks for every two faults, and counts the answers to one alone. `ask`
    /// gives number and position, or zeros.
    pub fn every_pair(&self, answers: &mut Coverage, ask: impl Fn(&D) -> (u32, u64)) {
        let mut seen = BTreeSet::new();
        let operation = self.operation;
        assert_eq!(ask(&self.sound), (0, 0), "{operation}: no fault");
        answers.count(operation, 0);
        for (at, second) in self.list.iter().enumerate() {
            let alone = second.planted(&self.sound);
            let wanted = second.wanted(&alone);
            assert_eq!(ask(&alone), wanted, "{operation}: {}", second.name);
            answers.count(operation, wanted.0);
            for first in &self.list[..at] {
                let both = first.planted(&alone);
                let names = (&first.name, &second.name);
                assert_eq!(ask(&both), first.wanted(&both), "{operation}: {names:?}");
                assert!(seen.insert(names), "{operation}: {names:?} again");
                self.assert_together(first, second, &both);
            }
        }
        compared(seen.len() as u64, &self.what("pairs of faults"));
        compared(self.neighbours(), &self.what("neighbours together"));
    }

    fn what(&self, what: &str) -> String {
        let operation = self.operation;
        match self.version {
            Some(version) => format!("{what}: {operation}, version {version}"),
            None => format!("{what}: {operation}"),
        }
    }

    /// Two faults that can hold together do: planted the other way round they
    /// give the same request, so neither is lost under the one planted later.
    fn assert_together(&self, first: &Fault<D>, second: &Fault<D>, both: &D) {
        let names = (&first.name, &second.name);
        let other = second.planted(&first.planted(&self.sound));
        assert!(
            other == *both || apart(names.0, names.1).is_some(),
            "{}: {names:?}: one is lost under the other",
            self.operation
        );
    }

    /// How many neighbours hold together.
    fn neighbours(&self) -> u64 {
        let together = |two: &&[Fault<D>]| apart(&two[0].name, &two[1].name).is_none();
        self.list.windows(2).filter(together).count() as u64
    }
}
