//! Requests to reissue a draft of version 1 as a body of version 2.

use crate::body_cases::unknown_suite;
use crate::body_write_cases::wrong_length;
use crate::drafts::{draft, Drafted};
use crate::fields::{suite_of, Fields};
use crate::image::Image;
use crate::random::Random;
use crate::rows::Added;
use crate::surroundings::{start_past, start_too_large, whole, Placed};
use crate::write_cases::output;
use crate::Expected;

/// A request. Accepted, it puts `fields.image()` at the front of the output, and
/// has read up to `end`.
#[derive(Clone, Debug)]
pub struct ReissueCase {
    pub message: Vec<u8>,
    pub start: u64,
    pub out: Vec<u8>,
    /// Those of the body that is written, with what is added.
    pub fields: Fields,
    pub end: u64,
    pub expected: Expected,
}

impl ReissueCase {
    /// What is lent beside the message and the output.
    pub fn added(&self) -> Added<'_> {
        Added {
            suite: self.fields.suite,
            id: &self.fields.id,
            suite_data: &self.fields.suite_data,
        }
    }
}

/// The request of a seed. What reading the draft refuses decides first, 20
/// included, then 6, 7, 24, 25 and 28.
pub fn reissue_case(seed: u64) -> ReissueCase {
    let mut random = Random::new(seed);
    let random = &mut random;
    let drafted = mostly_first(random);
    let (placed, read) = placed(random, &drafted);
    let ((suite, id, suite_data), fault) = added(random);
    let fields = drafted.fields.reissued(Added {
        suite,
        id: &id,
        suite_data: &suite_data,
    });
    let (out, fits) = output(random, fields.image().bytes.len());
    let expected = match (read, fault) {
        (Expected::Accepted, Some(number)) => Expected::Refused(number, 0),
        (Expected::Accepted, None) if !fits => Expected::Refused(28, 0),
        (other, _) => other,
    };
    ReissueCase {
        message: placed.message,
        start: placed.start,
        out,
        fields,
        end: placed.end,
        expected,
    }
}

/// A draft, of version 2 only now and then: there is nothing more to see of one.
fn mostly_first(random: &mut Random) -> Drafted {
    loop {
        let drafted = draft(random);
        if drafted.fields.version != 2 || random.one_in(12) {
            return drafted;
        }
    }
}

/// The draft in a message, read where it begins, past the end, from a start that
/// is too large, or from any other; and what reading it there decides.
fn placed(random: &mut Random, drafted: &Drafted) -> (Placed, Expected) {
    let image = Image {
        bytes: drafted.bytes.clone(),
        stops: Vec::new(),
    };
    let turn = random.below(24);
    let mut placed = match turn {
        0 => start_past(random, &image, 1),
        1 => start_too_large(random, &image),
        _ => whole(random, &image, 0),
    };
    // Nothing stands behind a draft that is cut.
    if drafted.cut && placed.fault.is_none() {
        placed.message.truncate(placed.end as usize);
    }
    let read = match placed.fault {
        Some((number, position)) => Expected::Refused(number, position),
        None if turn == 2 => {
            placed.start = random.below(placed.message.len() as u64 + 1);
            Expected::Open
        }
        None => moved(first_only(drafted), placed.start),
    };
    (placed, read)
}

/// What the reader of either version decides of a draft, as that of version 1
/// only does it: nothing is read of version 2 but the version.
fn first_only(drafted: &Drafted) -> Expected {
    match drafted.read {
        Expected::Open => Expected::Open,
        _ if drafted.bytes.first() == Some(&2) => Expected::Refused(4, 0),
        read => read,
    }
}

/// The same of a draft that begins at a start.
fn moved(read: Expected, start: u64) -> Expected {
    match read {
        Expected::Refused(2, position) => Expected::Refused(2, start + position),
        other => other,
    }
}

/// A suite, an ID and suite data.
type New = (u32, Vec<u8>, Vec<u8>);

/// What is added, and the number of the first fault in it.
fn added(random: &mut Random) -> (New, Option<u32>) {
    let (suite, of_suite) = match random.below(16) {
        0 => (unknown_suite(random), Some(6)),
        1 => (wide_suite(random), Some(6)),
        2 | 3 => (suite_of(random, 1), Some(7)),
        _ => (suite_of(random, 2), None),
    };
    let [id, suite_data] = [(); 2].map(|_| match random.below(12) {
        0 => wrong_length(random, &[32]),
        1 if random.one_in(8) => {
            let more = random.pick(&[256, 512, 65_536]);
            random.bytes(32 + more)
        }
        _ => random.bytes(32),
    });
    let of_id = (id.len() != 32).then_some(24);
    let of_data = (suite_data.len() != 32).then_some(25);
    let number = of_suite.or(of_id).or(of_data);
    ((suite, id, suite_data), number)
}

/// A known suite with bits above those that are stored.
fn wide_suite(random: &mut Random) -> u32 {
    let version = 1 + random.below(2) as u32;
    let above = random.between(1, 0xFFFF) as u32;
    suite_of(random, version) | above << 16
}
