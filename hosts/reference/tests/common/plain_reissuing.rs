//! The slow second opinion on drafts that are reissued: every part is read as
//! owned bytes, and the body joined from them.

use super::plain::{body, need, suite_version, Buffer, No, Part};
use generator::rows::Added;

/// Entries, each behind its length.
fn put(out: &mut Vec<u8>, parts: &[Part]) {
    for (_, part) in parts {
        out.extend([(part.len() / 256) as u8, (part.len() % 256) as u8]);
        out.extend(part);
    }
}

fn put_count(out: &mut Vec<u8>, count: usize) {
    out.extend([(count / 256) as u8, (count % 256) as u8]);
}

/// The body that the draft becomes.
pub fn reissue(message: &[u8], start: u64, added: Added) -> Result<Vec<u8>, No> {
    let draft = body(&mut Buffer::new(message, start)?, 1, false, None, 0)?;
    let [_, _, _, content_type, _, frame_length, _] = draft.numbers;
    need((content_type == 1) == (frame_length == 0), 20)?;
    let version = suite_version(u128::from(added.suite));
    need(version.is_some(), 6)?;
    need(version == Some(2), 7)?;
    need(added.id.len() == 32, 24)?;
    need(added.suite_data.len() == 32, 25)?;

    let mut out = vec![2, (added.suite / 256) as u8, (added.suite % 256) as u8];
    out.extend(added.id);
    let mut pairs = Vec::new();
    if !draft.pairs.is_empty() {
        put_count(&mut pairs, draft.pairs.len() / 2);
        put(&mut pairs, &draft.pairs);
    }
    put_count(&mut out, pairs.len());
    out.extend(pairs);
    put_count(&mut out, draft.keys.len() / 3);
    put(&mut out, &draft.keys);
    out.push(content_type as u8);
    out.extend(frame_length.to_be_bytes());
    out.extend(added.suite_data);
    Ok(out)
}
