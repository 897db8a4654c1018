//! The slow second opinion on writing: images of owned bytes, joined.

use super::plain::{may_write, need, section, suite_version, Buffer, No};
use std::ops::Range;
use std::str::from_utf8;

/// A table's places; its shape and a place outside are refused by `number`.
fn places(
    text: &[u8],
    table: &[u32],
    numbers: usize,
    number: u32,
) -> Result<Vec<Range<usize>>, No> {
    need(table.len().is_multiple_of(numbers), number)?;
    let mut parts = Vec::new();
    for place in table.chunks(2) {
        let (start, end) = (place[0] as u128, place[0] as u128 + place[1] as u128);
        need(end <= text.len() as u128, number)?;
        parts.push(start as usize..end as usize);
    }
    Ok(parts)
}

/// The bytes of a table's places, with 26 and 27.
fn lent(text: &[u8], table: &[u32], numbers: usize) -> Result<Vec<Vec<u8>>, No> {
    let parts = places(text, table, numbers, 26)?;
    need(table.len() / numbers <= 65_535, 27)?;
    need(parts.iter().all(|part| part.len() <= 65_535), 27)?;
    Ok(parts.into_iter().map(|part| text[part].to_vec()).collect())
}

fn put_entry(out: &mut Vec<u8>, part: &[u8]) {
    out.extend_from_slice(&(part.len() as u16).to_be_bytes());
    out.extend_from_slice(part);
}

pub fn write_section(text: &[u8], table: &[u32]) -> Result<Vec<u8>, No> {
    let parts = lent(text, table, 4)?;
    let mut earlier: Vec<&Vec<u8>> = Vec::new();
    let mut pairs = Vec::new();
    for pair in parts.chunks(2) {
        need(from_utf8(&pair[0]).is_ok(), 10)?;
        need(from_utf8(&pair[1]).is_ok(), 11)?;
        need(!earlier.contains(&&pair[0]), 12)?;
        earlier.push(&pair[0]);
        put_entry(&mut pairs, &pair[0]);
        put_entry(&mut pairs, &pair[1]);
    }
    need(pairs.len() < 65_534, 13)?;
    if parts.is_empty() {
        return Ok(vec![0, 0]);
    }
    let mut out = ((pairs.len() + 2) as u16).to_be_bytes().to_vec();
    out.extend_from_slice(&((parts.len() / 2) as u16).to_be_bytes());
    out.extend(pairs);
    Ok(out)
}

/// The least key that is left goes out next, until none is.
pub fn only_authenticated(
    message: &[u8],
    start: u64,
    text: &[u8],
    required: &[u32],
) -> Result<Vec<u8>, No> {
    let mut left = section(&mut Buffer::new(message, start)?, false)?;
    let places = places(text, required, 2, 31)?;
    let (mut count, mut pairs) = (0u16, Vec::new());
    while !left.is_empty() {
        let keys_left = (0..left.len()).step_by(2);
        let least = keys_left
            .min_by(|a, b| left[*a].1.cmp(&left[*b].1))
            .unwrap();
        let (key, value) = (left.remove(least).1, left.remove(least).1);
        if places.iter().any(|place| text[place.clone()] == key) {
            count += 1;
            put_entry(&mut pairs, &key);
            put_entry(&mut pairs, &value);
        }
    }
    if count > 0 {
        pairs.splice(..0, count.to_be_bytes());
    }
    Ok(pairs)
}

pub fn write_keys(text: &[u8], table: &[u32]) -> Result<Vec<u8>, No> {
    let parts = lent(text, table, 6)?;
    need(!parts.is_empty(), 38)?;
    let mut out = ((parts.len() / 3) as u16).to_be_bytes().to_vec();
    for key in parts.chunks(3) {
        need(from_utf8(&key[0]).is_ok(), 16)?;
        key.iter().for_each(|part| put_entry(&mut out, part));
    }
    Ok(out)
}

/// Each frame's parts are looked at twice, first for their IV and tag.
pub fn write_frames(length: u32, text: &[u8], table: &[u32]) -> Result<Vec<u8>, No> {
    need(length > 0, 20)?;
    let parts = places(text, table, 6, 26)?;
    need(!parts.is_empty(), 36)?;
    need(parts.len() / 3 <= 65_535, 27)?;
    for frame in parts.chunks(3) {
        need(frame[0].len() == 12, 19)?;
        need(frame[2].len() == 16, 30)?;
    }
    let (last, before) = parts
        .rchunks(3)
        .next()
        .zip(parts.len().checked_sub(3))
        .unwrap();
    for frame in parts[..before].chunks(3) {
        need(frame[1].len() == length as usize, 37)?;
    }
    need(last[1].len() <= length as usize, 35)?;
    let mut out = Vec::new();
    for (frame, number) in parts.chunks(3).zip(1u32..) {
        let content = &text[frame[1].clone()];
        let stored = (content.len() as u32).to_be_bytes();
        let is_last = 3 * number as usize == parts.len();
        out.extend(is_last.then_some([0xFF; 4]).into_iter().flatten());
        out.extend(number.to_be_bytes());
        out.extend(&text[frame[0].clone()]);
        out.extend(is_last.then_some(stored).into_iter().flatten());
        out.extend(content);
        out.extend(&text[frame[2].clone()]);
    }
    Ok(out)
}

/// `numbers` as in [`super::plain::Body`].
pub fn write_body(
    numbers: [u32; 7],
    policy: u32,
    id: &[u8],
    suite_data: &[u8],
    text: &[u8],
    pairs: &[u32],
    keys: &[u32],
) -> Result<Vec<u8>, No> {
    let [version, message_type, suite, content_type, iv_length, frame_length, form] = numbers;
    need(version == 1 || version == 2, 3)?;
    let first = version == 1;
    need(message_type == if first { 0x80 } else { 0 }, 5)?;
    let suites_version = suite_version(u128::from(suite));
    need(suites_version.is_some(), 6)?;
    need(suites_version == Some(u128::from(version)), 7)?;
    need(may_write(policy, u128::from(version)), 39)?;
    need(id.len() == if first { 16 } else { 32 }, 24)?;
    let mut section = write_section(text, pairs)?;
    if form != 0 {
        need(pairs.is_empty(), 33)?;
        section = vec![0, 2, 0, 0];
    }
    let keys = write_keys(text, keys)?;
    need(content_type == 1 || content_type == 2, 17)?;
    need(iv_length == if first { 12 } else { 0 }, 19)?;
    need(suite_data.len() == if first { 0 } else { 32 }, 25)?;
    need((content_type == 1) == (frame_length == 0), 20)?;
    let mut out = vec![version as u8];
    if first {
        out.push(0x80);
    }
    out.extend_from_slice(&[(suite >> 8) as u8, suite as u8]);
    out.extend_from_slice(id);
    out.extend(section);
    out.extend(keys);
    out.push(content_type as u8);
    if first {
        out.extend_from_slice(&[0, 0, 0, 0, 12]);
    }
    out.extend_from_slice(&frame_length.to_be_bytes());
    out.extend_from_slice(suite_data);
    Ok(out)
}
