//! Drafts that are mended: what the rows of dropped keys and of added ones
//! share, and one draft with all of its bytes.

use super::Mend;
use crate::headers::hex;

/// A draft of a version with a context section and a key section of choice.
pub(super) fn draft(version: u32, context: &str, keys: &str) -> Vec<u8> {
    draft_of(version, context, &hex(keys))
}

/// The same with any number of keys.
pub(super) fn draft_of(version: u32, context: &str, keys: &[u8]) -> Vec<u8> {
    let (front, id, back, data) = match version {
        1 => ("01 80 01 78", 0..16, "02 00 00 00 00 0C 00 00 10 00", 0..0),
        _ => ("02 05 78", 32..64, "01 00 00 00 00", 64..96u8),
    };
    let mut bytes = hex(front);
    bytes.extend(id);
    bytes.extend(hex(context));
    bytes.extend_from_slice(keys);
    bytes.extend(hex(back));
    bytes.extend(data);
    bytes
}

/// Both forms of an empty context, and one pair.
const CONTEXTS: [&str; 3] = [
    "00 00",
    "00 02 00 00",
    "00 0C 00 01 00 04 6C 61 6E 67 00 02 63 79",
];

/// How many drafts a row stands for.
pub const DRAFTS: u64 = 2 * 3;

/// Each version with each context.
pub(super) fn drafts() -> impl Iterator<Item = (u32, &'static str)> {
    let contexts = |version| CONTEXTS.map(|context| (version, context));
    [1, 2].into_iter().flat_map(contexts)
}

/// Keys with the IDs "a", "b" and "c".
pub(super) const ABC: &str = "0003 000161 000131 0001AA  000162 0000 0002BBBB  000163 000133 0000";
/// Keys whose IDs begin one another: "ab", "a", "abc" and none.
pub(super) const BEGIN: &str =
    "0004 00026162 0000 0000  000161 000132 0000  0003616263 0000 0001CC  0000 0000 0000";
/// IDs that stand more than once: "a", "b", "a", "a".
pub(super) const AGAIN: &str =
    "0004 000161 000131 0000  000162 0000 0000  000161 000131 0000  000161 000132 0001AA";
/// Two keys with the ID "\u{e9}".
pub(super) const ACUTE: &str = "0002 0002C3A9 0000 0000  0002C3A9 00026161 0000";

/// A draft of version 1 with three keys, four bytes behind it; the same without
/// the second, and then with another. All bytes stand here.
pub fn in_full(mend: &impl Mend) -> u64 {
    let front = "01 80 01 78 00 01 02 03 04 05 06 07 08 09 0A 0B 0C 0D 0E 0F 00 02 00 00";
    let first = format!(
        "{front} 00 03 00 02 70 31 00 01 61 00 03 AA BB CC 00 02 70 32 00 00 00 01 DD \
         00 02 70 33 00 01 62 00 00 02 00 00 00 00 0C 00 00 10 00 F1 F2 F3 F4"
    );
    let second = format!(
        "{front} 00 02 00 02 70 31 00 01 61 00 03 AA BB CC \
         00 02 70 33 00 01 62 00 00 02 00 00 00 00 0C 00 00 10 00 \
         00 00 00 00 00 00 00 00 00 F1 F2 F3 F4"
    );
    let third = format!(
        "{front} 00 03 00 02 70 31 00 01 61 00 03 AA BB CC \
         00 02 70 33 00 01 62 00 00 00 01 70 00 03 78 79 7A 00 02 EE FF \
         02 00 00 00 00 0C 00 00 10 00 F4"
    );
    let [first, second, third] = [first, second, third].map(|text| hex(&text));
    let mut buffer = first;
    assert_eq!(mend.drop_keys(&mut buffer, b"p2"), Ok(57));
    assert_eq!(buffer, second);
    let key = [&b"p"[..], b"xyz", &[0xEE, 0xFF]];
    assert_eq!(mend.add_key(&mut buffer, key), Ok(69));
    assert_eq!(buffer, third);
    2
}
