//! One draft that is to be mended, handed to both.

use crate::both::{row, written, Both};
use crate::numbers::Answer;
use crate::reads::few;
use crate::writes::both;
use crate::{crossing, records};
use bafirolen_sys::BafirolenWritten;
use generator::rows::{Mend, Written};

/// The answers, and the whole buffer afterwards; gives ours, and the buffer.
/// Refused, it is what it was.
fn mended(draft: &[u8], answered: (Answer<usize>, Vec<u8>)) -> (Answer<usize>, Vec<u8>) {
    let (answer, after) = &answered;
    assert!(answer.is_ok() || after == draft, "{answer:?}: the buffer");
    answered
}

/// The keys with a provider ID are dropped.
pub fn drop_keys(draft: &[u8], provider_id: &[u8]) -> (Answer<usize>, Vec<u8>) {
    let answered = both(
        draft,
        ([provider_id], []),
        || format!("{:02X?} from {:02X?}", few(provider_id), few(draft)),
        |draft| records::answer(crossing::drop_keys(draft, provider_id)),
        |draft| reference::drop_encrypted_data_keys(draft, provider_id),
    );
    mended(draft, answered)
}

/// A key is added: provider ID, provider info and ciphertext.
pub fn add_key(draft: &[u8], key: [&[u8]; 3]) -> (Answer<usize>, Vec<u8>) {
    let [id, info, ciphertext] = key;
    let answered = both(
        draft,
        (key, []),
        || format!("{:02X?} to {:02X?}", key.map(few), few(draft)),
        |draft| records::answer(crossing::add_key(draft, key)),
        |draft| reference::add_encrypted_data_key(draft, id, info, ciphertext),
    );
    mended(draft, answered)
}

/// Ours alone, in the very buffer that is lent: one of 4 GiB can't be copied.
pub struct Ours;

/// What a record says, as the rows have it.
fn told(record: BafirolenWritten) -> Written {
    row(records::answer(record), |length| length as u64)
}

impl Mend for Ours {
    fn drop_keys(&self, draft: &mut [u8], provider_id: &[u8]) -> Written {
        told(crossing::drop_keys(draft, provider_id))
    }

    fn add_key(&self, draft: &mut [u8], key: [&[u8]; 3]) -> Written {
        told(crossing::add_key(draft, key))
    }
}

/// Whether a buffer is above the greatest length.
fn is_too_long(draft: &[u8]) -> bool {
    draft.len() > u32::MAX as usize
}

/// Such a buffer as it is, handed to both: each refuses it. Its front and its
/// end keep.
fn too_long(
    draft: &mut [u8],
    ours: impl FnOnce(&mut [u8]) -> BafirolenWritten,
    theirs: impl FnOnce(&mut [u8]) -> Result<u64, reference::Refusal>,
) -> Written {
    const SOME: usize = 4_096;
    let ends = |draft: &[u8]| (draft[..SOME].to_vec(), draft[draft.len() - SOME..].to_vec());
    let before = ends(draft);
    let record = ours(draft);
    let wanted = records::written(theirs(draft));
    assert_eq!(record, wanted);
    assert!(before == ends(draft), "a buffer that is too long");
    told(record)
}

/// The buffer afterwards is copied to the one that is lent, unless that is too
/// long.
impl Mend for Both {
    fn drop_keys(&self, draft: &mut [u8], provider_id: &[u8]) -> Written {
        let ours = |draft: &mut [u8]| crossing::drop_keys(draft, provider_id);
        let theirs = |draft: &mut [u8]| reference::drop_encrypted_data_keys(draft, provider_id);
        match is_too_long(draft) {
            true => too_long(draft, ours, theirs),
            false => written(drop_keys(draft, provider_id), draft),
        }
    }

    fn add_key(&self, draft: &mut [u8], key: [&[u8]; 3]) -> Written {
        let [id, info, text] = key;
        let ours = |draft: &mut [u8]| crossing::add_key(draft, key);
        let theirs = |draft: &mut [u8]| reference::add_encrypted_data_key(draft, id, info, text);
        match is_too_long(draft) {
            true => too_long(draft, ours, theirs),
            false => written(add_key(draft, key), draft),
        }
    }
}
