//! A slow second opinion: the source's readers line by line, with the refusals
//! that later requests put among theirs, and frames as document 02 has them, on
//! owned bytes, with std's UTF-8 and a search of a list for earlier keys.

use std::str::from_utf8;

/// A number and a position.
pub type No = (u32, u64);

/// A part: its place and its bytes.
pub type Part = (u64, Vec<u8>);

#[derive(Clone, Copy)]
pub struct Buffer<'a> {
    pub bytes: &'a [u8],
    pub start: u128,
}

impl<'a> Buffer<'a> {
    pub fn new(bytes: &'a [u8], start: u64) -> Result<Buffer<'a>, No> {
        if bytes.len() > 4_294_967_295 || start > 4_294_967_295 {
            return Err((1, 0));
        }
        Ok(Buffer {
            bytes,
            start: u128::from(start),
        })
    }

    fn read(&mut self, n: u128) -> Result<Part, No> {
        let end = self.start + n;
        if end > self.bytes.len() as u128 {
            return Err((2, end as u64));
        }
        let data = self.bytes[self.start as usize..end as usize].to_vec();
        let start = self.start as u64;
        self.start = end;
        Ok((start, data))
    }

    fn number(&mut self, n: u128) -> Result<u128, No> {
        let (_, data) = self.read(n)?;
        Ok(data
            .iter()
            .fold(0, |number, byte| number * 256 + u128::from(*byte)))
    }

    /// The next `n` bytes don't go past an end, if there is one.
    fn within(&self, n: u128, end: Option<u128>) -> Result<(), No> {
        need(end.is_none_or(|end| self.start + n <= end), 32)
    }

    fn entry(&mut self, end: Option<u128>) -> Result<Part, No> {
        self.within(2, end)?;
        let n = self.number(2)?;
        self.within(n, end)?;
        self.read(n)
    }
}

pub fn need(holds: bool, number: u32) -> Result<(), No> {
    if holds {
        Ok(())
    } else {
        Err((number, 0))
    }
}

pub fn section(buffer: &mut Buffer, strict: bool) -> Result<Vec<Part>, No> {
    let length = buffer.number(2)?;
    if length == 0 {
        return Ok(Vec::new());
    }
    let end = buffer.start + length;
    let mut whole = *buffer;
    whole.read(length)?;
    buffer.within(2, Some(end))?;
    let count = buffer.number(2)?;
    if length == 2 {
        need(count == 0, 8)?;
        need(!strict, 21)?;
        return Ok(Vec::new());
    }
    need(count > 0, 9)?;
    let mut parts: Vec<Part> = Vec::new();
    let mut earlier: Vec<Vec<u8>> = Vec::new();
    for _ in 0..count {
        let key = buffer.entry(Some(end))?;
        need(from_utf8(&key.1).is_ok(), 10)?;
        let value = buffer.entry(Some(end))?;
        need(from_utf8(&value.1).is_ok(), 11)?;
        need(!earlier.contains(&key.1), 12)?;
        earlier.push(key.1.clone());
        parts.push(key);
        parts.push(value);
    }
    need(buffer.start == end, 14)?;
    Ok(parts)
}

pub fn keys(buffer: &mut Buffer, max: Option<u64>) -> Result<Vec<Part>, No> {
    let count = buffer.number(2)?;
    need(count > 0, 38)?;
    if let Some(max) = max {
        need(count <= u128::from(max), 15)?;
    }
    let mut parts = Vec::new();
    for _ in 0..count {
        let provider = buffer.entry(None)?;
        need(from_utf8(&provider.1).is_ok(), 16)?;
        parts.push(provider);
        parts.push(buffer.entry(None)?);
        parts.push(buffer.entry(None)?);
    }
    Ok(parts)
}

/// Frame by frame, until one is final: IV, content and tag of each.
pub fn frames(buffer: &mut Buffer, frame_length: u128) -> Result<Vec<Part>, No> {
    need(frame_length > 0, 20)?;
    let mut parts = Vec::new();
    for next in 1.. {
        let mut number = buffer.number(4)?;
        let last = number == 0xFFFF_FFFF;
        if last {
            number = buffer.number(4)?;
        }
        need(number == next, 34)?;
        parts.push(buffer.read(12)?);
        let mut length = frame_length;
        if last {
            length = buffer.number(4)?;
            need(length <= frame_length, 35)?;
        }
        parts.push(buffer.read(length)?);
        parts.push(buffer.read(16)?);
        if last {
            break;
        }
    }
    Ok(parts)
}

/// A body as read; suite data at (0, nothing) in version 1.
#[derive(Debug, PartialEq, Eq)]
pub struct Body {
    /// Version, type, suite, content type, IV length, frame length, form.
    pub numbers: [u32; 7],
    pub id: Part,
    pub pairs: Vec<Part>,
    pub keys: Vec<Part>,
    pub suite_data: Part,
    pub tail: u64,
}

pub fn suite_version(suite: u128) -> Option<u128> {
    match suite {
        0x0014 | 0x0046 | 0x0078 | 0x0114 | 0x0146 | 0x0178 | 0x0214 | 0x0346 | 0x0378 => Some(1),
        0x0478 | 0x0578 => Some(2),
        _ => None,
    }
}

/// The versions that a policy reads, and those that it writes, by its number;
/// a greater one is as good as the last.
const READ: [&[u128]; 4] = [&[1, 2], &[1, 2], &[1, 2], &[2]];
const WRITTEN: [&[u128]; 4] = [&[1, 2], &[1], &[2], &[2]];

pub fn may_read(policy: u32, version: u128) -> bool {
    READ[policy.min(3) as usize].contains(&version)
}

pub fn may_write(policy: u32, version: u128) -> bool {
    WRITTEN[policy.min(3) as usize].contains(&version)
}

/// `only` is 0 for the reader of either version.
pub fn body(
    buffer: &mut Buffer,
    only: u128,
    strict: bool,
    max: Option<u64>,
    policy: u32,
) -> Result<Body, No> {
    let version = buffer.number(1)?;
    need(version == 1 || version == 2, 3)?;
    need(only == 0 || only == version, 4)?;
    let mut message_type = 0;
    if version == 1 {
        message_type = buffer.number(1)?;
        need(message_type == 0x80, 5)?;
    }
    let suite = buffer.number(2)?;
    need(suite_version(suite).is_some(), 6)?;
    need(suite_version(suite) == Some(version), 7)?;
    need(may_read(policy, version), 39)?;
    let id = buffer.read(if version == 1 { 16 } else { 32 })?;
    let from = buffer.start;
    let pairs = section(buffer, strict)?;
    // An empty context takes 2 bytes today, and took 4.
    let form = u128::from(pairs.is_empty() && buffer.start - from == 4);
    let keys = keys(buffer, max)?;
    let content_type = buffer.number(1)?;
    need(content_type == 1 || content_type == 2, 17)?;
    let mut iv_length = 0;
    if version == 1 {
        need(buffer.number(4)? == 0, 18)?;
        iv_length = buffer.number(1)?;
        need(iv_length == 12, 19)?;
    }
    let frame_length = buffer.number(4)?;
    let suite_data = if version == 2 {
        buffer.read(32)?
    } else {
        (0, Vec::new())
    };
    need(only != 0 || (content_type == 2) == (frame_length > 0), 20)?;
    let numbers = [
        version,
        message_type,
        suite,
        content_type,
        iv_length,
        frame_length,
        form,
    ];
    Ok(Body {
        numbers: numbers.map(|number| number as u32),
        id,
        pairs,
        keys,
        suite_data,
        tail: buffer.start as u64,
    })
}
