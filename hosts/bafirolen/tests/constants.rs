//! The constants are those of the C header.

use bafirolen::*;

const POLICIES: &str = include_str!("../../../include/bafirolen_policy.h");
const HEADERS: [&str; 6] = [
    include_str!("../../../include/bafirolen.h"),
    include_str!("../../../include/bafirolen_drafts.h"),
    include_str!("../../../include/bafirolen_fetch.h"),
    include_str!("../../../include/bafirolen_records.h"),
    include_str!("../../../include/bafirolen_reissue.h"),
    POLICIES,
];

/// What a header defines the name by.
fn text(name: &str) -> &'static str {
    let head = format!("#define BAFIROLEN_{name} ");
    let mut lines = HEADERS.iter().flat_map(|header| header.lines());
    let line = lines.find_map(|line| line.strip_prefix(&head));
    let value = line.unwrap_or_else(|| panic!("no {name}"));
    value.split("/*").next().unwrap_or_default().trim()
}

/// The value of that: a number, or a product of a name and a number.
fn defined(name: &str) -> usize {
    let value = text(name);
    let product = value
        .trim_matches(['(', ')'])
        .strip_prefix("BAFIROLEN_")
        .and_then(|rest| rest.split_once(" * "));
    match product {
        Some((factor, number)) => defined(factor) * number.parse::<usize>().expect("a number"),
        None => match value.strip_prefix("0x") {
            Some(digits) => usize::from_str_radix(digits, 16).expect("a number"),
            None => value.parse().expect("a number"),
        },
    }
}

/// The names that the headers define, each with its parameter if it has one; an
/// include guard has no value, and is left out.
fn names() -> impl Iterator<Item = &'static str> {
    let lines = HEADERS.iter().flat_map(|header| header.lines());
    lines
        .filter_map(|line| line.strip_prefix("#define BAFIROLEN_")?.split_once(' '))
        .map(|(name, _)| name)
}

#[test]
fn are_those_of_c() {
    let constants = [
        ("VERSION", VERSION as usize),
        ("STACK_READ", STACK_READ),
        ("STACK_KEYS", STACK_KEYS),
        ("STACK_ONLY_AUTHENTICATED", STACK_ONLY_AUTHENTICATED),
        ("STACK_LISTED", STACK_LISTED),
        ("STACK_WRITE", STACK_WRITE),
        ("NUMBERS_PER_PAIR", NUMBERS_PER_PAIR),
        ("NUMBERS_PER_KEY", NUMBERS_PER_KEY),
        ("NUMBERS_PER_FRAME", NUMBERS_PER_FRAME),
        ("LARGEST_PAIR_TABLE", LARGEST_PAIR_TABLE),
        ("LARGEST_KEY_TABLE", LARGEST_KEY_TABLE),
        ("V1_MESSAGE_TYPE", V1_MESSAGE_TYPE as usize),
        ("NON_FRAMED", NON_FRAMED as usize),
        ("FRAMED", FRAMED as usize),
        ("IV_LEN", IV_LEN),
        ("TAG_LEN", TAG_LEN),
        ("V1_MESSAGE_ID_LEN", V1_MESSAGE_ID_LEN),
        ("V2_MESSAGE_ID_LEN", V2_MESSAGE_ID_LEN),
        ("V2_SUITE_DATA_LEN", V2_SUITE_DATA_LEN),
    ];
    for (name, value) in constants {
        assert_eq!(value, defined(name), "{name}");
    }
    let of_c = names().filter(|name| !name.contains('('));
    let of_c: std::collections::BTreeSet<&str> = of_c.collect();
    let rows: std::collections::BTreeSet<&str> = constants.iter().map(|row| row.0).collect();
    assert_eq!(rows.len(), constants.len(), "a name in two rows");
    assert_eq!(rows, of_c, "names that C has");
}

/// A sum of a number, and another for each item.
#[test]
fn rounds_are_those_of_c() {
    let numbers = |name: &str| -> Vec<u64> {
        let words = text(name).split(['(', ' ']);
        words.filter_map(|word| word.parse().ok()).collect()
    };
    let rounds = numbers("MOST_ROUNDS(keys)");
    assert_eq!(rounds, [most_rounds(0), most_rounds(1) - most_rounds(0)]);
    // The final frame is one of them, and has the first number.
    let (one, two) = (most_frame_rounds(1), most_frame_rounds(2));
    assert_eq!(numbers("MOST_FRAME_ROUNDS(frames)")[..2], [one, two - one]);
    assert_eq!(names().filter(|name| name.contains('(')).count(), 2);
}

/// The declarations have the numbers, and the wrapper an enum for them.
#[test]
fn policies_are_those_of_c() {
    let enumerators = POLICIES.lines().filter_map(|line| {
        let (name, number) = line.strip_prefix("    BAFIROLEN_")?.split_once(" = ")?;
        Some((
            name,
            number.trim_end_matches(',').parse().expect("a number"),
        ))
    });
    let wanted = [
        ("NO_POLICY", bafirolen_sys::NO_POLICY),
        (
            "FORBID_ENCRYPT_ALLOW_DECRYPT",
            bafirolen_sys::FORBID_ENCRYPT_ALLOW_DECRYPT,
        ),
        (
            "REQUIRE_ENCRYPT_ALLOW_DECRYPT",
            bafirolen_sys::REQUIRE_ENCRYPT_ALLOW_DECRYPT,
        ),
        (
            "REQUIRE_ENCRYPT_REQUIRE_DECRYPT",
            bafirolen_sys::REQUIRE_ENCRYPT_REQUIRE_DECRYPT,
        ),
    ];
    assert_eq!(enumerators.collect::<Vec<(&str, u32)>>(), wanted);
    assert_eq!(wanted.map(|row| row.1), [0, 1, 2, 3]);
}
