//! A key added to a draft.

use super::mending::{draft, drafts, ABC, ACUTE, BEGIN};
use super::Mend;
use crate::headers::hex;

/// A key section, the parts of a key, and the section afterwards, or the
/// refusal.
type Add<'a> = (&'a str, [&'a str; 3], Result<&'a str, u32>);

const ONE: &str = "0001 000161 000131 0001AA";

const ADDS: [Add; 16] = [
    (
        ONE,
        ["62", "32", "BB"],
        Ok("0002 000161 000131 0001AA  000162 000132 0001BB"),
    ),
    (
        ONE,
        ["6263", "323334", ""],
        Ok("0002 000161 000131 0001AA  00026263 0003323334 0000"),
    ),
    (
        ONE,
        ["", "", ""],
        Ok("0002 000161 000131 0001AA  0000 0000 0000"),
    ),
    (
        ONE,
        ["", "", "00"],
        Ok("0002 000161 000131 0001AA  0000 0000 000100"),
    ),
    // An ID that is there already, the whole key again, one that begins another.
    (
        ONE,
        ["61", "", ""],
        Ok("0002 000161 000131 0001AA  000161 0000 0000"),
    ),
    (
        ONE,
        ["61", "31", "AA"],
        Ok("0002 000161 000131 0001AA  000161 000131 0001AA"),
    ),
    (
        ONE,
        ["6161", "31", "AA"],
        Ok("0002 000161 000131 0001AA  00026161 000131 0001AA"),
    ),
    // Behind several; other parts may be any bytes.
    (
        ABC,
        ["7A", "FF", "00FF"],
        Ok(
            "0004 000161 000131 0001AA  000162 0000 0002BBBB  000163 000133 0000 \
             00017A 0001FF 000200FF",
        ),
    ),
    (
        ACUTE,
        ["C3A9", "C3", "A9"],
        Ok("0003 0002C3A9 0000 0000  0002C3A9 00026161 0000  0002C3A9 0001C3 0001A9"),
    ),
    (
        BEGIN,
        ["F09F9491", "", ""],
        Ok(
            "0005 00026162 0000 0000  000161 000132 0000  0003616263 0000 0001CC  0000 0000 0000 \
             0004F09F9491 0000 0000",
        ),
    ),
    // An ID that isn't UTF-8.
    (ONE, ["FF", "", ""], Err(16)),
    (ONE, ["C3", "A9", ""], Err(16)),
    (ONE, ["A9", "", ""], Err(16)),
    (ONE, ["6162C080", "", "AA"], Err(16)),
    (ABC, ["EDA080", "", ""], Err(16)),
    (ABC, ["F4908080", "31", "AA"], Err(16)),
];

/// The draft with so many bytes behind it.
fn added(mend: &impl Mend, (version, context): (u32, &str), room: usize, row: Add) {
    let (section, key, wanted) = row;
    let old = draft(version, context, section);
    let behind: Vec<u8> = (1..=room as u8).rev().collect();
    let before = [&old, &behind[..]].concat();
    let mut buffer = before.clone();
    let [id, info, ciphertext] = key.map(hex);
    let answer = mend.add_key(&mut buffer, [&id, &info, &ciphertext]);
    let new = draft(version, context, wanted.unwrap_or(section));
    let wanted = match wanted {
        Ok(_) if new.len() > before.len() => Err((28, 0)),
        Ok(_) => Ok(new.len() as u64),
        Err(number) => Err((number, 0)),
    };
    assert_eq!(answer, wanted, "{row:?}, {room}");
    let after = match wanted {
        Ok(_) => [&new, &before[new.len()..]].concat(),
        Err(_) => before,
    };
    assert_eq!(buffer, after, "{row:?}, {room}");
}

/// With just the bytes that the key takes behind the draft, with more, with one
/// too few and with none.
pub fn adds(mend: &impl Mend) -> u64 {
    let mut answers = 0;
    for row in ADDS {
        let (section, _, wanted) = row;
        let rooms = match wanted {
            Ok(after) => {
                let taken = hex(after).len() - hex(section).len();
                vec![0, taken - 1, taken, taken + 1, taken + 20]
            }
            Err(_) => vec![0, 10, 100],
        };
        for of in drafts() {
            for &room in &rooms {
                added(mend, of, room, row);
                answers += 1;
            }
        }
    }
    answers
}
