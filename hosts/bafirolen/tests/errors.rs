//! The functions' lists of refusals under 'Errors' are those that the
//! comparisons hold each operation to, in the documents' order of tests.
//! (`copy_value` and `find_bytes` refer to `find_value` for theirs, and the
//! first adds 28; `header_body_to_vec`, `frames_to_vec` and
//! `reissued_header_body_to_vec` refer to the lengths,
//! `add_encrypted_data_key_to_vec` to the function that it calls, and
//! `reissued_header_body_len` to the one that it measures for.)

use bafirolen::Refusal;
use report::{assert_said, LISTED};

const SOURCES: [&str; 12] = [
    include_str!("../src/auth.rs"),
    include_str!("../src/body.rs"),
    include_str!("../src/body_len.rs"),
    include_str!("../src/finding.rs"),
    include_str!("../src/frame_writes.rs"),
    include_str!("../src/frames.rs"),
    include_str!("../src/host.rs"),
    include_str!("../src/mending.rs"),
    include_str!("../src/only_authenticated.rs"),
    include_str!("../src/reissuing.rs"),
    include_str!("../src/sections.rs"),
    include_str!("../src/writes.rs"),
];

/// A function, and what its operations in the comparisons begin with.
const ROWS: [(&str, &str); 18] = [
    ("read_aad_section", "read section"),
    ("read_encrypted_data_keys_section", "read keys"),
    ("read_header_body", "read body"),
    ("read_header_auth_tag", "read auth"),
    ("read_frames", "read frames"),
    ("find_value", "find"),
    ("write_aad_section", "write section"),
    ("write_encrypted_data_keys_section", "write keys"),
    ("write_header_body", "write body"),
    ("header_body_len", "body length"),
    ("write_header_auth_tag", "write auth"),
    ("write_frames", "write frames"),
    ("frames_len", "frames length"),
    ("write_listing", "write listing"),
    ("write_only_authenticated", "write only authenticated"),
    ("drop_encrypted_data_keys", "drop keys"),
    ("add_encrypted_data_key", "add key"),
    ("reissue_header_body", "reissue"),
];

/// What stands under 'Errors' over the function, as one line.
fn errors(function: &str) -> String {
    let head = format!("pub fn {function}");
    let source = SOURCES
        .iter()
        .find(|source| source.contains(&head))
        .unwrap_or_else(|| panic!("no {function}"));
    let before = source.split(&head).next().unwrap_or_default();
    let (_, list) = before
        .rsplit_once("/// # Errors")
        .expect("a list of errors");
    list.replace("///", " ")
}

/// The numbers in a list, each of which stands before its variant.
fn numbers(list: &str) -> Vec<u32> {
    let mut parts = list.split(" [`").peekable();
    let mut numbers = Vec::new();
    while let Some(part) = parts.next() {
        let Some(next) = parts.peek() else { break };
        let number = part.split_whitespace().next_back().expect("a number");
        let number = number.parse().expect("a number before its variant");
        let variant = format!("{:?}", Refusal::from_number(number, 0));
        let name = variant.split(' ').next().unwrap_or_default();
        assert!(
            next.starts_with(&format!("{name}`](Refusal::{name})")),
            "{number}: {next}"
        );
        numbers.push(number);
    }
    numbers
}

#[test]
fn are_those_of_the_operations() {
    for (function, operation) in ROWS {
        let lists: Vec<&[u32]> = LISTED
            .iter()
            .filter(|(name, _)| name.starts_with(operation))
            .map(|(_, list)| *list)
            .collect();
        assert_said(function, &numbers(&errors(function)), &lists);
    }
}

/// What stands before the first number is a reference to another function.
#[test]
fn some_refer_to_others() {
    for (function, other, more) in [
        ("find_bytes", "find_value", &[][..]),
        ("copy_value", "find_value", &[28][..]),
        ("header_body_to_vec", "header_body_len", &[][..]),
        ("frames_to_vec", "frames_len", &[][..]),
        (
            "add_encrypted_data_key_to_vec",
            "add_encrypted_data_key",
            &[][..],
        ),
        ("reissued_header_body_len", "reissue_header_body", &[][..]),
        (
            "reissued_header_body_to_vec",
            "reissued_header_body_len",
            &[][..],
        ),
    ] {
        let list = errors(function);
        let those = format!("Those of [`{other}`]");
        let rest = list.trim_start().strip_prefix(&those);
        let rest = rest.unwrap_or_else(|| panic!("{function}: {list}"));
        assert_eq!(numbers(rest), more, "{function}");
    }
}
