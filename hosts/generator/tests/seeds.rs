//! Equal seeds give equal requests; different ones, nearly always, others.

use generator::{auth_cases, body_cases, body_write_cases, frame_cases, frame_write_cases};
use generator::{key_cases, mending_cases, only_cases, policy_cases, reissue_cases};
use generator::{section_cases, write_cases};
use std::collections::HashSet;
use std::fmt::Debug;

const SEEDS: u64 = 2_000;

fn determined<T: Debug>(name: &str, request: impl Fn(u64) -> T) {
    let mut different = HashSet::new();
    for seed in 0..SEEDS {
        let first = format!("{:?}", request(seed));
        assert_eq!(first, format!("{:?}", request(seed)), "{name}, seed {seed}");
        different.insert(first);
    }
    println!("{name}: {SEEDS} compared, {} different", different.len());
    assert!(
        different.len() as u64 > SEEDS * 9 / 10,
        "{name}: {} different",
        different.len()
    );
}

#[test]
fn seeds_determine_requests() {
    determined("section_case", section_cases::section_case);
    determined("key_case", key_cases::key_case);
    determined("body_case", body_cases::body_case);
    determined("auth_case", auth_cases::auth_case);
    determined("frame_case", frame_cases::frame_case);
    determined("write_section_case", write_cases::write_section_case);
    determined("write_keys_case", write_cases::write_keys_case);
    determined("body_write_case", body_write_cases::body_write_case);
    determined("auth_write_case", auth_cases::auth_write_case);
    determined("frame_write_case", frame_write_cases::frame_write_case);
    determined("only_case", only_cases::only_case);
    determined("drop_case", mending_cases::drop_case);
    determined("add_case", mending_cases::add_case);
    determined("reissue_case", reissue_cases::reissue_case);
    determined("read_case", policy_cases::read_case);
    determined("write_case", policy_cases::write_case);
}
