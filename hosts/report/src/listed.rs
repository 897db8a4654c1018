//! What each operation can answer, and in which order it tests.

use std::collections::BTreeSet;

/// The refusals that document 01, or the change request that adds it, lists
/// for each operation, in its order of tests; each stands where it comes first,
/// such as 2 and 32, which are tested of each part in turn, and 34 in reading,
/// 19 and 30 in writing, which are tested of each frame. Three are listed twice:
/// 16 of a key that is added, once of the draft's keys, and once of its own
/// provider ID; 6 and 7 of a draft that is reissued, once of its own suite, and
/// once of the new one.
///
/// Where version 2 alone is asked for, no policy forbids what is read.
pub const LISTED: [(&str, &[u32]); 33] = [
    (
        "read section tolerant",
        &[1, 2, 32, 8, 9, 10, 11, 12, 14, 22],
    ),
    (
        "read section strict",
        &[1, 2, 32, 8, 21, 9, 10, 11, 12, 14, 22],
    ),
    ("find", &[1, 2, 32, 8, 9, 10, 11, 12, 14, 29]),
    (
        "write only authenticated",
        &[1, 2, 32, 8, 9, 10, 11, 12, 14, 31, 28],
    ),
    ("read keys", &[1, 2, 38, 15, 16, 23]),
    (
        "read body tolerant",
        &[
            1, 2, 3, 5, 6, 7, 32, 8, 9, 10, 11, 12, 14, 38, 15, 16, 17, 18, 19, 20, 22, 23,
        ],
    ),
    (
        "read body strict",
        &[
            1, 2, 3, 5, 6, 7, 32, 8, 21, 9, 10, 11, 12, 14, 38, 15, 16, 17, 18, 19, 20, 22, 23,
        ],
    ),
    (
        "read body v1 tolerant",
        &[
            1, 2, 3, 4, 5, 6, 7, 32, 8, 9, 10, 11, 12, 14, 38, 15, 16, 17, 18, 19, 22, 23,
        ],
    ),
    (
        "read body v1 strict",
        &[
            1, 2, 3, 4, 5, 6, 7, 32, 8, 21, 9, 10, 11, 12, 14, 38, 15, 16, 17, 18, 19, 22, 23,
        ],
    ),
    (
        "read body v2 tolerant",
        &[
            1, 2, 3, 4, 6, 7, 32, 8, 9, 10, 11, 12, 14, 38, 15, 16, 17, 22, 23,
        ],
    ),
    (
        "read body v2 strict",
        &[
            1, 2, 3, 4, 6, 7, 32, 8, 21, 9, 10, 11, 12, 14, 38, 15, 16, 17, 22, 23,
        ],
    ),
    (
        "read body under policy tolerant",
        &[
            1, 2, 3, 5, 6, 7, 39, 32, 8, 9, 10, 11, 12, 14, 38, 15, 16, 17, 18, 19, 20, 22, 23,
        ],
    ),
    (
        "read body under policy strict",
        &[
            1, 2, 3, 5, 6, 7, 39, 32, 8, 21, 9, 10, 11, 12, 14, 38, 15, 16, 17, 18, 19, 20, 22, 23,
        ],
    ),
    (
        "read body under policy v1 tolerant",
        &[
            1, 2, 3, 4, 5, 6, 7, 39, 32, 8, 9, 10, 11, 12, 14, 38, 15, 16, 17, 18, 19, 22, 23,
        ],
    ),
    (
        "read body under policy v1 strict",
        &[
            1, 2, 3, 4, 5, 6, 7, 39, 32, 8, 21, 9, 10, 11, 12, 14, 38, 15, 16, 17, 18, 19, 22, 23,
        ],
    ),
    (
        "read body under policy v2 tolerant",
        &[
            1, 2, 3, 4, 6, 7, 32, 8, 9, 10, 11, 12, 14, 38, 15, 16, 17, 22, 23,
        ],
    ),
    (
        "read body under policy v2 strict",
        &[
            1, 2, 3, 4, 6, 7, 32, 8, 21, 9, 10, 11, 12, 14, 38, 15, 16, 17, 22, 23,
        ],
    ),
    ("read auth", &[1, 6, 2]),
    ("read frames", &[1, 20, 2, 34, 35, 23]),
    ("write section", &[26, 27, 10, 11, 12, 13, 28]),
    ("write keys", &[26, 27, 38, 16, 28]),
    ("write body", WRITE_BODY),
    ("body length", but_28(WRITE_BODY)),
    ("write body under policy", WRITE_BODY_UNDER_POLICY),
    ("body length under policy", but_28(WRITE_BODY_UNDER_POLICY)),
    ("write auth", &[6, 19, 30, 28]),
    ("write frames", WRITE_FRAMES),
    ("frames length", but_28(WRITE_FRAMES)),
    (
        "drop keys",
        &[
            1, 2, 3, 5, 6, 7, 32, 8, 9, 10, 11, 12, 14, 38, 16, 17, 18, 19, 20, 40,
        ],
    ),
    (
        "add key",
        &[
            1, 2, 3, 5, 6, 7, 32, 8, 9, 10, 11, 12, 14, 38, 16, 17, 18, 19, 20, 16, 27, 28,
        ],
    ),
    ("reissue body", REISSUE_BODY),
    ("reissued length", but_28(REISSUE_BODY)),
    ("write listing", &[28]),
];

const WRITE_BODY: &[u32] = &[
    3, 5, 6, 7, 24, 26, 27, 10, 11, 12, 13, 33, 38, 16, 17, 19, 25, 20, 28,
];

const WRITE_BODY_UNDER_POLICY: &[u32] = &[
    3, 5, 6, 7, 39, 24, 26, 27, 10, 11, 12, 13, 33, 38, 16, 17, 19, 25, 20, 28,
];

const REISSUE_BODY: &[u32] = &[
    1, 2, 3, 4, 5, 6, 7, 32, 8, 9, 10, 11, 12, 14, 38, 16, 17, 18, 19, 20, 6, 7, 24, 25, 28,
];

const WRITE_FRAMES: &[u32] = &[20, 26, 36, 27, 19, 30, 37, 35, 28];

/// A writer's list without its last line, the output that is too short.
const fn but_28(list: &'static [u32]) -> &'static [u32] {
    match list {
        [rest @ .., 28] => rest,
        _ => panic!("28 is tested last"),
    }
}

/// The operations that read a body.
pub const BODY_READERS: [&str; 6] = [
    "read body tolerant",
    "read body strict",
    "read body v1 tolerant",
    "read body v1 strict",
    "read body v2 tolerant",
    "read body v2 strict",
];

/// Those that read one under a policy.
pub const BODY_READERS_UNDER_POLICY: [&str; 6] = [
    "read body under policy tolerant",
    "read body under policy strict",
    "read body under policy v1 tolerant",
    "read body under policy v1 strict",
    "read body under policy v2 tolerant",
    "read body under policy v2 strict",
];

/// The list of one operation.
pub fn listed(operation: &str) -> &'static [u32] {
    let list = LISTED.iter().find(|(name, _)| *name == operation);
    list.unwrap_or_else(|| panic!("{operation} has no list")).1
}

/// What is said of a function, which does what some operations do, is what
/// these list: the same refusals, and those of each operation in its order, none
/// more often than it lists it.
pub fn assert_said(function: &str, said: &[u32], lists: &[&[u32]]) {
    let set: BTreeSet<u32> = said.iter().copied().collect();
    let all: BTreeSet<u32> = lists.iter().copied().flatten().copied().collect();
    assert_eq!(set, all, "{function}");
    for list in lists {
        let order: Vec<u32> = said.iter().copied().filter(|n| list.contains(n)).collect();
        assert_eq!(order, *list, "{function}: the order");
    }
}
