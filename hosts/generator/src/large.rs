//! Fields and tables of sizes that random requests don't reach.

use crate::fields::Fields;
use crate::Pair;

/// The longest part of an entry.
pub const LONGEST: usize = 65_535;

/// Bytes that are all 0, more than 32 bits can count if need be. The pages of
/// a zeroed vector take no memory until they are written to.
pub fn zeros(length: usize) -> Vec<u8> {
    let mut probe: Vec<u8> = Vec::new();
    assert!(
        probe.try_reserve_exact(length).is_ok(),
        "no room for {length} bytes"
    );
    drop(probe);
    vec![0; length]
}

/// Fields of a version without pairs and keys, framed, in today's form. They
/// lack nothing but a key.
pub fn plain(version: u32) -> Fields {
    let first = version == 1;
    let id_length = if first { 16 } else { 32 };
    Fields {
        version,
        message_type: if first { 0x80 } else { 0 },
        suite: if first { 0x0178 } else { 0x0578 },
        id: (0..id_length).collect(),
        pairs: Vec::new(),
        keys: Vec::new(),
        content_type: 2,
        iv_length: if first { 12 } else { 0 },
        frame_length: 4096,
        form: 0,
        suite_data: if first {
            Vec::new()
        } else {
            (64..96).collect()
        },
    }
}

/// The bytes that a body of a version takes beside its key section, where it
/// has no pairs and today's form.
pub fn length_without_keys(version: u32) -> u64 {
    match version {
        1 => 1 + 1 + 2 + 16 + 2 + 1 + 4 + 1 + 4,
        _ => 1 + 2 + 32 + 2 + 1 + 4 + 32,
    }
}

/// A table of 65,535 keys whose section takes just `total` bytes. All share a
/// text of 65,535 bytes by their infos, and then by their ciphertexts; their
/// provider IDs are empty.
pub fn keys_of_total(total: u64) -> Vec<u32> {
    let mut rest = total - 2 - 6 * LONGEST as u64;
    let mut table = vec![0; 6 * LONGEST];
    for part in [3, 5] {
        for key in table.chunks_exact_mut(6) {
            let length = rest.min(LONGEST as u64);
            key[part] = length as u32;
            rest -= length;
        }
    }
    assert_eq!(rest, 0, "two parts a key take more");
    table
}

/// Pairs whose keys have one length and agree in all but what stands behind
/// their first `front` bytes: the pair's number in `digits` bytes.
pub fn agreeing(front: usize, digits: usize, count: usize) -> Vec<Pair> {
    let letters: Vec<u8> = (0..front).map(|at| b'a' + (at % 23) as u8).collect();
    (0..count)
        .map(|number| {
            let mut key = letters.clone();
            key.extend(format!("{number:0digits$}").bytes());
            (key, format!("v{number}").into_bytes())
        })
        .collect()
}
