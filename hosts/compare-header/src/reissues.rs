//! One draft that is to be reissued, handed to both.

use crate::both::{row, written, Both};
use crate::kept::Kept;
use crate::numbers::Answer;
use crate::reads::{few, shown_at};
use crate::writes::{about_length, both};
use crate::{crossing, records};
use generator::rows::{Added, Reissue, Written};

/// What a draft gets where that is sound.
pub const SOUND: Added<'static> = Added {
    suite: 0x0478,
    id: &[0x1D; 32],
    suite_data: &[0xDA; 32],
};

fn theirs(added: Added) -> reference::Reissue {
    reference::Reissue {
        suite: added.suite,
        id: added.id,
        suite_data: added.suite_data,
    }
}

/// The fronts of what is long, as a failure shows them.
fn shown(message: &[u8], start: u64, added: Added) -> String {
    let front = Added {
        id: few(added.id),
        suite_data: few(added.suite_data),
        ..added
    };
    format!("{front:02X?}, {}", shown_at(message, start))
}

/// The length of the body that a draft becomes. Nothing that is lent changes.
pub fn reissued_len(message: &[u8], start: u64, added: Added) -> Answer<usize> {
    let kept = Kept::new([message, added.id, added.suite_data]);
    let record = crossing::reissued_len(message, start, added);
    kept.assert_unchanged("bytes of a reissued length");
    let wanted = reference::reissued_header_body_len(message, start, &theirs(added));
    let wanted = records::written(wanted);
    assert!(
        record == wanted,
        "{record:?} against {wanted:?}: {}",
        shown(message, start, added)
    );
    records::answer(record)
}

/// The length is asked first, and then the body is also written into outputs
/// about that length.
pub fn reissue(message: &[u8], start: u64, added: Added, out: &[u8]) -> (Answer<usize>, Vec<u8>) {
    let length = reissued_len(message, start, added);
    about_length([], length, out, |out| {
        reissue_alone(message, start, added, out)
    })
}

/// The same without a length and other outputs.
pub fn reissue_alone(
    message: &[u8],
    start: u64,
    added: Added,
    out: &[u8],
) -> (Answer<usize>, Vec<u8>) {
    both(
        out,
        ([message, added.id, added.suite_data], []),
        || shown(message, start, added),
        |out| records::answer(crossing::reissue(message, start, added, out)),
        |out| reference::reissue_header_body(message, start, &theirs(added), out),
    )
}

impl Reissue for Both {
    fn reissue(&self, message: &[u8], start: u64, added: Added, out: &mut [u8]) -> Written {
        written(reissue(message, start, added, out), out)
    }

    fn reissued_len(&self, message: &[u8], start: u64, added: Added) -> Written {
        row(reissued_len(message, start, added), |length| length as u64)
    }
}
