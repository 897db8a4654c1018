//! Valid UTF-8, from the grammar of RFC 3629, section 4.

/// The ranges a character's second byte may lie in, by its first byte, with
/// the number of bytes after the first; `None` for a first byte that begins
/// no character. The narrowed ranges keep out overlong forms (E0, F0),
/// surrogates (ED) and characters above 10FFFF (F4).
#[inline]
fn shape(first: u8) -> Option<(usize, u8, u8)> {
    match first {
        0xC2..=0xDF => Some((1, 0x80, 0xBF)),
        0xE0 => Some((2, 0xA0, 0xBF)),
        0xE1..=0xEC => Some((2, 0x80, 0xBF)),
        0xED => Some((2, 0x80, 0x9F)),
        0xEE..=0xEF => Some((2, 0x80, 0xBF)),
        0xF0 => Some((3, 0x90, 0xBF)),
        0xF1..=0xF3 => Some((3, 0x80, 0xBF)),
        0xF4 => Some((3, 0x80, 0x8F)),
        _ => None,
    }
}

/// UTF8-tail of the grammar.
#[inline]
fn is_tail(byte: u8) -> bool {
    (0x80..=0xBF).contains(&byte)
}

/// Whether the bytes are a sequence of characters by the grammar; the empty
/// sequence is one.
pub fn is_utf8(bytes: &[u8]) -> bool {
    let mut rest = bytes;
    loop {
        rest = skip_ascii(rest);
        let Some((&first, after)) = rest.split_first() else {
            return true;
        };
        let Some((count, low, high)) = shape(first) else {
            return false;
        };
        if after.len() < count || after[0] < low || after[0] > high {
            return false;
        }
        if !after[1..count].iter().all(|&byte| is_tail(byte)) {
            return false;
        }
        rest = &after[count..];
    }
}

/// The bytes from the first one above 7F on. Most texts are all ASCII, so
/// eight are looked at in one step.
#[inline]
fn skip_ascii(bytes: &[u8]) -> &[u8] {
    let mut rest = bytes;
    while let Some((eight, after)) = rest.split_first_chunk::<8>() {
        if u64::from_ne_bytes(*eight) & 0x8080_8080_8080_8080 != 0 {
            break;
        }
        rest = after;
    }
    while let Some((&byte, after)) = rest.split_first() {
        if byte > 0x7F {
            break;
        }
        rest = after;
    }
    rest
}
