//! The C headers say of each function what the comparisons hold its
//! operations to. (That their words are README's, a test in C says.)

use report::{assert_said, listed, BODY_READERS, BODY_READERS_UNDER_POLICY};

const HEADERS: [&str; 4] = [
    include_str!("../../../include/bafirolen.h"),
    include_str!("../../../include/bafirolen_policy.h"),
    include_str!("../../../include/bafirolen_drafts.h"),
    include_str!("../../../include/bafirolen_reissue.h"),
];
const REFUSALS: &str = include_str!("../../../include/bafirolen_refusals.h");

#[test]
fn the_numbers_of_refusals() {
    let numbers: Vec<u32> = REFUSALS
        .lines()
        .filter_map(|line| line.trim().strip_prefix("BAFIROLEN_")?.split_once(" = "))
        .map(|(_, rest)| {
            let digits = rest.split(|c: char| !c.is_ascii_digit()).next();
            digits
                .and_then(|digits| digits.parse().ok())
                .expect("a number")
        })
        .collect();
    assert!(numbers.into_iter().eq(0..=40));
}

/// Each function that refuses, and the operations that its list is of.
const FUNCTIONS: [(&str, &[&str]); 24] = [
    ("bafirolen_header_number", &["read body tolerant"]),
    ("bafirolen_read_header_body", &BODY_READERS),
    (
        "bafirolen_read_aad_section",
        &["read section tolerant", "read section strict"],
    ),
    ("bafirolen_read_encrypted_data_keys_section", &["read keys"]),
    ("bafirolen_find_value", &["find"]),
    ("bafirolen_copy_value", &["find"]),
    ("bafirolen_read_header_auth_tag", &["read auth"]),
    ("bafirolen_read_frames", &["read frames"]),
    ("bafirolen_write_aad_section", &["write section"]),
    (
        "bafirolen_write_encrypted_data_keys_section",
        &["write keys"],
    ),
    ("bafirolen_write_header_auth_tag", &["write auth"]),
    ("bafirolen_write_header_body", &["write body"]),
    ("bafirolen_header_body_len", &["body length"]),
    ("bafirolen_write_frames", &["write frames"]),
    ("bafirolen_frames_len", &["frames length"]),
    (
        "bafirolen_write_only_authenticated",
        &["write only authenticated"],
    ),
    ("bafirolen_write_listing", &["write listing"]),
    (
        "bafirolen_read_header_body_under_policy",
        &BODY_READERS_UNDER_POLICY,
    ),
    (
        "bafirolen_write_header_body_under_policy",
        &["write body under policy"],
    ),
    (
        "bafirolen_header_body_len_under_policy",
        &["body length under policy"],
    ),
    ("bafirolen_drop_encrypted_data_keys", &["drop keys"]),
    ("bafirolen_add_encrypted_data_key", &["add key"]),
    ("bafirolen_reissue_header_body", &["reissue body"]),
    ("bafirolen_reissued_header_body_len", &["reissued length"]),
];

/// What the function answers of an operation: a copy may find no room, and the
/// two calls have no maximum.
fn list(function: &str, operation: &str) -> Vec<u32> {
    let mut list = listed(operation).to_vec();
    match function {
        "bafirolen_copy_value" => list.push(28),
        "bafirolen_header_number" => list.retain(|number| *number != 15),
        _ => {}
    }
    list
}

/// In a header's order: the numbers behind "Refuses:", and the first function
/// that is declared below them.
fn said(header: &str) -> Vec<(String, Vec<u32>)> {
    let mut said = Vec::new();
    let mut rest = header;
    while let Some((_, behind)) = rest.split_once("Refuses: ") {
        let (numbers, below) = behind.split_once(".\n").expect("a full stop");
        let (_, declared) = below.split_once(" */\n").expect("the comment's end");
        let (before, _) = declared.split_once('(').expect("a declaration");
        let name = before.rsplit(' ').next().expect("a name");
        let numbers = numbers.split(' ').map(|number| number.parse().unwrap());
        said.push((name.to_owned(), numbers.collect()));
        rest = below;
    }
    said
}

#[test]
fn what_each_function_refuses() {
    let said: Vec<_> = HEADERS.into_iter().flat_map(said).collect();
    let names: Vec<&str> = said.iter().map(|(name, _)| name.as_str()).collect();
    assert_eq!(names, FUNCTIONS.map(|(name, _)| name));
    for ((name, numbers), (_, operations)) in said.iter().zip(FUNCTIONS) {
        let lists: Vec<Vec<u32>> = operations.iter().map(|one| list(name, one)).collect();
        let lists: Vec<&[u32]> = lists.iter().map(Vec::as_slice).collect();
        assert_said(name, numbers, &lists);
    }
    report::compared(said.len() as u64, "lists of refusals in the C header");
}
