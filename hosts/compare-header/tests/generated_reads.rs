//! The readers on generated requests, intact and damaged. Each refusal that
//! an operation lists has to come about.

use bafirolen::{Mode, Request, Which};
use compare_header::expected::{as_expected, parts_are};
use compare_header::numbers::{number, numbers};
use compare_header::scale::seeds;
use compare_header::{compared, reads, request, Coverage, BODY_READERS};
use generator::auth_cases::auth_case;
use generator::body_cases::{body_case, BodyCase, Reader};
use generator::frame_cases::frame_case;
use generator::frames;
use generator::key_cases::key_case;
use generator::section_cases::section_case;
use generator::Expected;

const MODES: [Mode; 2] = [Mode::Tolerant, Mode::Strict];
const READERS: [Which; 3] = [Which::Either, Which::V1Only, Which::V2Only];

fn mode(strict: bool) -> Mode {
    MODES[usize::from(strict)]
}

#[test]
fn sections_and_finds() {
    let mut coverage = Coverage::default();
    let mut count = 0;
    for seed in seeds(800_000) {
        let case = section_case(seed);
        for mode in MODES {
            let (answer, table) =
                reads::read_aad_section(&case.message, case.start, mode, &case.table);
            let operation = match mode {
                Mode::Tolerant => "read section tolerant",
                Mode::Strict => "read section strict",
            };
            coverage.count(operation, number(&answer));
            if mode == self::mode(case.strict) {
                as_expected(seed, &answer, case.expected);
                if let (Expected::Accepted, Ok(read)) = (case.expected, answer) {
                    assert_eq!((read.count, read.tail), (case.pairs.len(), case.end));
                    let wanted = case.pairs.iter().flat_map(|(key, value)| [&key[..], value]);
                    parts_are(seed, &case.message, &table[..4 * read.count], wanted);
                }
            }
        }
        let found = reads::find_value(&case.message, case.start, &case.asked);
        coverage.count("find", number(&found));
        as_expected(seed, &found, case.find_expected);
        if let (Expected::Accepted, Ok(place)) = (case.find_expected, found) {
            assert_eq!(
                place.within(&case.message),
                Some(&case.pairs[case.at].1[..])
            );
        }
        count += 3;
    }
    coverage.print();
    coverage.assert_complete(["read section tolerant", "read section strict", "find"]);
    compared(count, "reads of context sections, and finds");
}

#[test]
fn key_sections() {
    let mut coverage = Coverage::default();
    let mut count = 0;
    for seed in seeds(600_000) {
        let case = key_case(seed);
        let (answer, table) = reads::read_encrypted_data_keys_section(
            &case.message,
            case.start,
            case.max,
            &case.table,
        );
        coverage.count("read keys", number(&answer));
        as_expected(seed, &answer, case.expected);
        if let (Expected::Accepted, Ok(read)) = (case.expected, answer) {
            assert_eq!((read.count, read.tail), (case.keys.len(), case.end));
            let wanted = case.keys.iter().flatten().map(|part| &part[..]);
            parts_are(seed, &case.message, &table[..6 * read.count], wanted);
        }
        count += 1;
    }
    coverage.print();
    coverage.assert_complete(["read keys"]);
    compared(count, "reads of key sections");
}

fn operation(request: Request) -> &'static str {
    match (request.which, request.mode) {
        (Which::Either, Mode::Tolerant) => "read body tolerant",
        (Which::Either, Mode::Strict) => "read body strict",
        (Which::V1Only, Mode::Tolerant) => "read body v1 tolerant",
        (Which::V1Only, Mode::Strict) => "read body v1 strict",
        (Which::V2Only, Mode::Tolerant) => "read body v2 tolerant",
        (Which::V2Only, Mode::Strict) => "read body v2 strict",
    }
}

/// The request that the case expects an answer to.
fn asked(case: &BodyCase) -> Request {
    let which = match case.reader {
        Reader::Either => Which::Either,
        Reader::V1 => Which::V1Only,
        Reader::V2 => Which::V2Only,
    };
    request(which, mode(case.strict), case.max)
}

/// Every reader in both modes on each message.
#[test]
fn bodies() {
    let mut coverage = Coverage::default();
    let mut count = 0;
    for seed in seeds(800_000) {
        let case = body_case(seed);
        for (which, mode) in READERS.into_iter().flat_map(|w| MODES.map(|m| (w, m))) {
            let request = request(which, mode, case.max);
            body(seed, &case, request, &mut coverage);
            count += 1;
        }
    }
    coverage.print();
    coverage.assert_complete(BODY_READERS);
    compared(count, "reads of bodies");
}

fn body(seed: u64, case: &BodyCase, request: Request, coverage: &mut Coverage) {
    let (answer, tables) = reads::read_header_body(
        &case.message,
        case.start,
        request,
        &case.pair_table,
        &case.key_table,
    );
    coverage.count(operation(request), number(&answer));
    if request != asked(case) {
        return;
    }
    as_expected(seed, &answer, case.expected);
    if let (Expected::Accepted, Ok(read)) = (case.expected, answer) {
        let (message, fields) = (&case.message, &case.fields);
        let wanted = numbers(&fields.numbers().into());
        assert_eq!(read.numbers, wanted, "seed {seed}");
        assert_eq!(read.tail, case.end, "seed {seed}");
        assert_eq!(read.message_id.within(message), Some(&fields.id[..]));
        assert_eq!(
            read.suite_data.within(message),
            Some(&fields.suite_data[..])
        );
        let pairs = fields
            .pairs
            .iter()
            .flat_map(|(key, value)| [&key[..], value]);
        parts_are(seed, message, &tables.pairs[..4 * read.pair_count], pairs);
        let keys = fields.keys.iter().flatten().map(|part| &part[..]);
        parts_are(seed, message, &tables.keys[..6 * read.key_count], keys);
    }
}

/// The two calls of a host, on the same messages as the body readers.
#[test]
fn hosts() {
    let (mut count, mut accepted) = (0, 0);
    for seed in seeds(400_000) {
        let case = body_case(seed);
        let (number, _) = reads::host_answer(&case.message, case.start);
        accepted += u64::from(number == 0);
        count += 1;
    }
    assert!(accepted > 0 && accepted < count);
    compared(count, "numbers and positions told to a host");
}

#[test]
fn authentication_records() {
    let mut coverage = Coverage::default();
    let mut count = 0;
    for seed in seeds(500_000) {
        let case = auth_case(seed);
        let answer = reads::read_header_auth_tag(&case.message, case.start, case.suite);
        coverage.count("read auth", number(&answer));
        as_expected(seed, &answer, case.expected);
        if let Ok(read) = answer {
            assert_eq!(
                (read.iv, read.tag, read.tail),
                (case.iv, case.tag, case.end),
                "seed {seed}"
            );
        }
        count += 1;
    }
    coverage.print();
    coverage.assert_complete(["read auth"]);
    compared(count, "reads of authentication records");
}

#[test]
fn runs_of_frames() {
    let mut coverage = Coverage::default();
    let mut count = 0;
    for seed in seeds(1_000_000) {
        let case = frame_case(seed);
        let (answer, table) =
            reads::read_frames(&case.message, case.start, case.frame_length, &case.table);
        coverage.count("read frames", number(&answer));
        as_expected(seed, &answer, case.expected);
        if let (Expected::Accepted, Ok(read)) = (case.expected, answer) {
            assert_eq!((read.count, read.tail), (case.frames.len(), case.end));
            let wanted = frames::parts(&case.frames);
            parts_are(seed, &case.message, &table[..6 * read.count], wanted);
        }
        count += 1;
    }
    coverage.print();
    coverage.assert_complete(["read frames"]);
    compared(count, "reads of frames");
}
