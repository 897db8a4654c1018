//! Keys dropped from a draft.

use super::mending::{draft, drafts, ABC, ACUTE, AGAIN, BEGIN};
use super::Mend;
use crate::headers::hex;

/// A key section, a provider ID, and the section afterwards, or the refusal.
type Drop<'a> = (&'a str, &'a str, Result<&'a str, u32>);

const NONE: Result<&str, u32> = Err(40);

const DROPS: [Drop; 32] = [
    // The first, the last and the one between; none of them.
    (
        ABC,
        "61",
        Ok("0002 000162 0000 0002BBBB  000163 000133 0000"),
    ),
    (
        ABC,
        "62",
        Ok("0002 000161 000131 0001AA  000163 000133 0000"),
    ),
    (
        ABC,
        "63",
        Ok("0002 000161 000131 0001AA  000162 0000 0002BBBB"),
    ),
    (ABC, "64", Ok(ABC)),
    (ABC, "", Ok(ABC)),
    // Other parts that hold the bytes, and bytes of several parts.
    (ABC, "31", Ok(ABC)),
    (ABC, "AA", Ok(ABC)),
    (ABC, "616263", Ok(ABC)),
    (ABC, "000161", Ok(ABC)),
    (ABC, "61000131", Ok(ABC)),
    // An ID that begins another is another.
    (
        BEGIN,
        "61",
        Ok("0003 00026162 0000 0000  0003616263 0000 0001CC  0000 0000 0000"),
    ),
    (
        BEGIN,
        "6162",
        Ok("0003 000161 000132 0000  0003616263 0000 0001CC  0000 0000 0000"),
    ),
    (
        BEGIN,
        "616263",
        Ok("0003 00026162 0000 0000  000161 000132 0000  0000 0000 0000"),
    ),
    (
        BEGIN,
        "",
        Ok("0003 00026162 0000 0000  000161 000132 0000  0003616263 0000 0001CC"),
    ),
    (BEGIN, "61626364", Ok(BEGIN)),
    (BEGIN, "6261", Ok(BEGIN)),
    (BEGIN, "62", Ok(BEGIN)),
    (BEGIN, "6100", Ok(BEGIN)),
    (BEGIN, "00", Ok(BEGIN)),
    // Several keys with the ID, whatever their other parts, and all but those.
    (AGAIN, "61", Ok("0001 000162 0000 0000")),
    (
        AGAIN,
        "62",
        Ok("0003 000161 000131 0000  000161 000131 0000  000161 000132 0001AA"),
    ),
    (AGAIN, "41", Ok(AGAIN)),
    // Every key: one, two that differ elsewhere, two that are equal.
    ("0001 000161 000131 0001AA", "61", NONE),
    ("0001 0000 000131 0001AA", "", NONE),
    (
        "0001 000161 000131 0001AA",
        "",
        Ok("0001 000161 000131 0001AA"),
    ),
    (
        "0001 0000 000131 0001AA",
        "61",
        Ok("0001 0000 000131 0001AA"),
    ),
    ("0002 0000 0000 0000  0000 0000 0000", "", NONE),
    (ACUTE, "C3A9", NONE),
    // What is no text is no key's ID: half a character, and bytes that begin
    // with a whole one.
    (ACUTE, "C3", Ok(ACUTE)),
    (ACUTE, "A9", Ok(ACUTE)),
    (ACUTE, "C3A9FF", Ok(ACUTE)),
    (ACUTE, "FF", Ok(ACUTE)),
];

/// What stands behind a draft.
const BEHIND: [&[u8]; 3] = [b"", b"\xEE", b"rest of it"];

/// The buffer afterwards is the new draft, and up to the old one's end 00.
fn dropped(mend: &impl Mend, (version, context): (u32, &str), behind: &[u8], row: Drop) {
    let (section, id, wanted) = row;
    let old = draft(version, context, section);
    let mut buffer = [&old, behind].concat();
    let answer = mend.drop_keys(&mut buffer, &hex(id));
    let mut new = draft(version, context, wanted.unwrap_or(section));
    let tail = wanted.map(|_| new.len() as u64);
    assert_eq!(answer, tail.map_err(|number| (number, 0)), "{row:?}");
    new.resize(old.len(), 0);
    new.extend_from_slice(behind);
    assert_eq!(buffer, new, "{row:?}");
}

pub fn drops(mend: &impl Mend) -> u64 {
    let mut answers = 0;
    for row in DROPS {
        for of in drafts() {
            for behind in BEHIND {
                dropped(mend, of, behind, row);
                answers += 1;
            }
        }
    }
    answers
}
