//! Generated messages, sound and damaged, fed in pieces to each operation that
//! reads: by ones, by what is wanted, and at random. Each refusal that an
//! operation lists has to come about before the message is there whole.

use bafirolen::{most_rounds, Form, Mode, Which};
use compare_header::crossing;
use compare_header::fetched::{Body, BodyUnderPolicy, Context, Feeder, Find, Frames};
use compare_header::fetched::{Host, Keys, OnlyAuthenticated, Record, Reissued};
use compare_header::scale::no_fewer;
use compare_header::{request, BODY_READERS, BODY_READERS_UNDER_POLICY};
use generator::auth_cases::auth_case;
use generator::body_cases::body_case;
use generator::frame_cases::frame_case;
use generator::key_cases::key_case;
use generator::only_cases::only_case;
use generator::policy_cases::read_case;
use generator::reissue_cases::reissue_case;
use generator::section_cases::section_case;

/// Other messages than those that are read whole elsewhere.
const APART: u64 = 0xFE7C_0000;

/// In the order of the operations' names.
const READERS: [(Which, Mode); 6] = [
    (Which::Either, Mode::Tolerant),
    (Which::Either, Mode::Strict),
    (Which::V1Only, Mode::Tolerant),
    (Which::V1Only, Mode::Strict),
    (Which::V2Only, Mode::Tolerant),
    (Which::V2Only, Mode::Strict),
];

/// One of these by turns.
fn turn<T: Copy>(seed: u64, list: &[T]) -> T {
    list[seed as usize % list.len()]
}

/// How many of a table's places have no bytes: nobody waits for those.
fn empty(table: &[u32]) -> u64 {
    table.chunks_exact(2).filter(|place| place[1] == 0).count() as u64
}

/// Accepted bodies of which no part is empty, by version: these take the most
/// rounds that there can be.
#[derive(Default)]
struct Full([u64; 2]);

impl Full {
    /// An accepted body, the places of its keys, and the rounds from no byte
    /// on. A context in today's empty form is its length alone.
    fn took(&mut self, rounds: u64, version: u32, no_context: bool, keys: &[u32]) {
        let in_version_1 = most_rounds(keys.len() as u64 / 6);
        let most = in_version_1 - if version == 1 { 0 } else { 2 };
        let spared = u64::from(no_context) + empty(keys);
        assert_eq!(rounds, most - spared);
        self.0[version as usize - 1] += u64::from(spared == 0);
    }

    fn assert_met(self) {
        assert!(self.0.iter().all(|&count| count > 0), "{:?}", self.0);
    }
}

#[test]
fn bodies() {
    let mut feeder = Feeder::new(1_091);
    let mut full = Full::default();
    for seed in no_fewer(15_000) {
        let case = body_case(seed ^ APART);
        let (which, mode) = turn(seed, &READERS);
        let body = Body {
            request: request(which, mode, case.max),
            pairs: &case.pair_table,
            keys: &case.key_table,
        };
        let operation = turn(seed, &BODY_READERS);
        let fed = feeder.feed(operation, &body, &case.message, case.start);
        if let (Ok(read), tables) = fed.whole.told {
            let no_context = read.pair_count == 0 && read.numbers.form == Form::Today;
            let keys = &tables.keys[..6 * read.key_count];
            full.took(fed.rounds, read.numbers.version, no_context, keys);
        }
    }
    full.assert_met();
    feeder.seen.assert_complete("bodies", BODY_READERS);
}

#[test]
fn bodies_under_a_policy() {
    let mut feeder = Feeder::new(1_092);
    let mut full = Full::default();
    for seed in no_fewer(12_000) {
        let under = read_case(!seed ^ APART);
        let case = &under.case;
        let body = BodyUnderPolicy {
            policy: under.policy,
            asked: crossing::Asked {
                which: turn(seed, &[0, 0, 1, 1, 2, 2]),
                mode: turn(seed, &[0, 1]),
                has_max: case.max.is_some().into(),
                max: case.max.unwrap_or(0),
            },
            pairs: &case.pair_table,
            keys: &case.key_table,
        };
        let operation = turn(seed, &BODY_READERS_UNDER_POLICY);
        let fed = feeder.feed(operation, &body, &case.message, case.start);
        let (read, tables) = fed.whole.told;
        if read.number == 0 {
            let no_context = read.pair_count == 0 && read.numbers.form == 0;
            let keys = &tables.keys[..6 * read.key_count as usize];
            full.took(fed.rounds, read.numbers.version, no_context, keys);
        }
    }
    full.assert_met();
    feeder
        .seen
        .assert_complete("bodies under a policy", BODY_READERS_UNDER_POLICY);
}

#[test]
fn told_to_a_host() {
    let mut feeder = Feeder::new(1_093);
    for seed in no_fewer(3_000) {
        let case = body_case(!seed ^ APART);
        feeder.feed("read body tolerant", &Host, &case.message, case.start);
    }
    feeder.seen.report("messages told to a host");
}

/// All of a draft is there before what is added is looked at.
#[test]
fn drafts_reissued() {
    let mut feeder = Feeder::new(1_090);
    for seed in no_fewer(4_000) {
        let case = reissue_case(seed ^ APART);
        let (added, out) = (case.added(), &case.out[..]);
        let reissued = Reissued { added, out };
        feeder.feed("reissue body", &reissued, &case.message, case.start);
    }
    let operations = ["reissue body"];
    feeder.seen.assert_complete("drafts to reissue", operations);
}

#[test]
fn context_sections() {
    let mut feeder = Feeder::new(1_094);
    for seed in no_fewer(15_000) {
        let case = section_case(seed ^ APART);
        let (mode, operation) = match seed % 2 {
            0 => (Mode::Tolerant, "read section tolerant"),
            _ => (Mode::Strict, "read section strict"),
        };
        let table = &case.table[..];
        let context = Context { mode, table };
        let fed = feeder.feed(operation, &context, &case.message, case.start);
        if let (Ok(read), _) = fed.whole.told {
            let no_context = read.tail == case.start + 2;
            assert_eq!(fed.rounds, if no_context { 1 } else { 2 });
        }
    }
    let operations = ["read section tolerant", "read section strict"];
    feeder.seen.assert_complete("context sections", operations);
}

#[test]
fn finds() {
    let mut feeder = Feeder::new(1_095);
    for seed in no_fewer(8_000) {
        let case = section_case(!seed ^ APART);
        let find = Find { key: &case.asked };
        let fed = feeder.feed("find", &find, &case.message, case.start);
        if fed.whole.number == 0 {
            assert_eq!(fed.rounds, 2);
        }
    }
    feeder.seen.assert_complete("finds", ["find"]);
}

#[test]
fn only_authenticated_pairs() {
    let mut feeder = Feeder::new(1_096);
    for seed in no_fewer(8_000) {
        let case = only_case(seed ^ APART);
        let only = OnlyAuthenticated {
            text: case.text(),
            required: &case.required,
            out: &case.out,
        };
        let operation = "write only authenticated";
        feeder.feed(operation, &only, &case.message, case.start);
    }
    feeder
        .seen
        .assert_complete("pairs only authenticated", ["write only authenticated"]);
}

#[test]
fn key_sections() {
    let mut feeder = Feeder::new(1_097);
    for seed in no_fewer(12_000) {
        let case = key_case(seed ^ APART);
        let (max, table) = (case.max, &case.table[..]);
        let keys = Keys { max, table };
        let fed = feeder.feed("read keys", &keys, &case.message, case.start);
        if let (Ok(read), table) = fed.whole.told {
            let keys = &table[..6 * read.count];
            assert_eq!(fed.rounds, 1 + keys.len() as u64 - empty(keys));
        }
    }
    feeder.seen.assert_complete("key sections", ["read keys"]);
}

#[test]
fn authentication_records() {
    let mut feeder = Feeder::new(1_098);
    for seed in no_fewer(8_000) {
        let case = auth_case(seed ^ APART);
        let record = Record { suite: case.suite };
        let fed = feeder.feed("read auth", &record, &case.message, case.start);
        if fed.whole.number == 0 {
            let has_iv = case.end - case.start > 16;
            assert_eq!(fed.rounds, if has_iv { 2 } else { 1 });
        }
    }
    feeder
        .seen
        .assert_complete("authentication records", ["read auth"]);
}

#[test]
fn runs_of_frames() {
    let mut feeder = Feeder::new(1_099);
    for seed in no_fewer(6_000) {
        let case = frame_case(seed ^ APART);
        let (frame_length, table) = (case.frame_length, &case.table[..]);
        let frames = Frames {
            frame_length,
            table,
        };
        let fed = feeder.feed("read frames", &frames, &case.message, case.start);
        if let (Ok(read), table) = fed.whole.told {
            let regular = read.count as u64 - 1;
            let frames = &table[..6 * read.count];
            assert_eq!(fed.rounds, 4 * regular + 6 - empty(frames));
        }
    }
    feeder.seen.assert_complete("frames", ["read frames"]);
}
