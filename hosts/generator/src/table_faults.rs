//! Faults of a writer's tables: shape, places, counts and lengths.

use crate::random::Random;

/// Refusal 26, and 31 of required keys: a table that isn't in fours, sixes or
/// twos, or a place outside.
pub fn misplace(random: &mut Random, table: &mut Vec<u32>, numbers: usize, text: &[u8]) {
    if table.is_empty() || random.one_in(2) {
        let short = !table.is_empty() && random.one_in(2);
        if short {
            table.pop();
        } else {
            let more = 1 + random.index(numbers - 1);
            table.extend(std::iter::repeat_n(0, more));
        }
        return;
    }
    let length = text.len() as u32;
    let at = 2 * random.index(table.len() / 2);
    let start = table[at];
    let (start, len) = match random.below(7) {
        0 => (length + 1, 0),
        1 => (length, 1),
        2 => (start, length - start + 1),
        3 => (u32::MAX, u32::MAX),
        4 => (u32::MAX, 0),
        5 => (0, u32::MAX),
        _ => (length.wrapping_add(random.next_u64() as u32 % 1000 + 1), 0),
    };
    table[at] = start;
    table[at + 1] = len;
}

/// Refusal 27: a part of 65,536 bytes or more, or 65,536 entries.
pub fn enlarge(random: &mut Random, table: &mut Vec<u32>, numbers: usize, text: &mut Vec<u8>) {
    if random.one_in(24) {
        table.resize(numbers * 65_536, 0);
        return;
    }
    if table.is_empty() {
        table.resize(numbers, 0);
    }
    let length = 65_536 + random.index(3);
    while text.len() < length {
        text.push(b'x');
    }
    let at = 2 * random.index(table.len() / 2);
    table[at] = random.index(text.len() - length + 1) as u32;
    table[at + 1] = length as u32;
}
