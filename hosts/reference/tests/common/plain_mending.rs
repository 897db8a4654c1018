//! The slow second opinion on drafts that are mended: every part is read as
//! owned bytes, and the buffer afterwards is joined from them.

use super::plain::{body, need, Body, Buffer, No, Part};
use std::str::from_utf8;

/// The tail that is answered, and the buffer afterwards.
pub type Mended = (u64, Vec<u8>);

fn read(draft: &[u8]) -> Result<Body, No> {
    body(&mut Buffer::new(draft, 0)?, 0, false, None, 0)
}

fn end(part: &Part) -> usize {
    part.0 as usize + part.1.len()
}

/// The draft with these parts, three a key, for its own.
fn joined(draft: &[u8], body: &Body, parts: &[&[u8]]) -> Vec<u8> {
    // The count stands two bytes before the first entry, which is two bytes
    // longer than what it holds.
    let count_at = body.keys[0].0 as usize - 4;
    let behind = end(&body.keys[body.keys.len() - 1]);
    let mut bytes = draft[..count_at].to_vec();
    let count = parts.len() / 3;
    bytes.extend([(count / 256) as u8, (count % 256) as u8]);
    for part in parts {
        bytes.extend([(part.len() / 256) as u8, (part.len() % 256) as u8]);
        bytes.extend(*part);
    }
    bytes.extend(&draft[behind..body.tail as usize]);
    bytes
}

pub fn drop_keys(draft: &[u8], provider_id: &[u8]) -> Result<Mended, No> {
    let body = read(draft)?;
    let mut left = Vec::new();
    for key in body.keys.chunks(3) {
        if key[0].1 != provider_id {
            left.extend(key.iter().map(|part| &part.1[..]));
        }
    }
    need(!left.is_empty(), 40)?;
    let mut after = joined(draft, &body, &left);
    let tail = after.len() as u64;
    while after.len() < body.tail as usize {
        after.push(0);
    }
    after.extend(&draft[after.len()..]);
    Ok((tail, after))
}

pub fn add_key(draft: &[u8], key: [&[u8]; 3]) -> Result<Mended, No> {
    let body = read(draft)?;
    need(from_utf8(key[0]).is_ok(), 16)?;
    let mut parts: Vec<&[u8]> = body.keys.iter().map(|part| &part.1[..]).collect();
    parts.extend(key);
    need(key.iter().all(|part| part.len() < 65_536), 27)?;
    need(parts.len() / 3 < 65_536, 27)?;
    let mut after = joined(draft, &body, &parts);
    let tail = after.len() as u64;
    need(after.len() <= draft.len(), 28)?;
    after.extend(&draft[after.len()..]);
    Ok((tail, after))
}
