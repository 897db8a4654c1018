//! A policy changes one thing: where nothing up to the suite is refused and the
//! policy forbids the version, the answer is 39. Otherwise it is that of the
//! same request without a policy: number, position, record, tables and output.
//!
//! Here ours under a policy is held against ours without, and what is forbidden
//! against the bytes, or the numbers, of the request.

use bafirolen_sys::{BafirolenBody, BafirolenNumbers, BafirolenWritten};
use compare_header::compared;
use compare_header::crossing::{self, Asked};
use compare_header::scale::seeds;
use generator::body_cases::{body_case, Reader};
use generator::body_write_cases::body_write_case;
use generator::fields::{SUITES_V1, SUITES_V2};
use generator::headers::samples;
use generator::policies::{forbids_reading, forbids_writing, may_read, numbers, policy, POLICIES};
use generator::random::Random;
use generator::rows::Lent;

const READERS: [Reader; 3] = [Reader::Either, Reader::V1, Reader::V2];

/// A reader of which nothing else is asked; it has no maximum.
fn asked(reader: Reader, mode: u32) -> Asked {
    Asked {
        which: match reader {
            Reader::Either => 0,
            Reader::V1 => 1,
            Reader::V2 => 2,
        },
        mode,
        has_max: 0,
        max: 0,
    }
}

const BODY_FORBIDDEN: BafirolenBody = BafirolenBody {
    number: 39,
    position: 0,
    numbers: BafirolenNumbers {
        version: 0,
        message_type: 0,
        suite: 0,
        content_type: 0,
        header_iv_length: 0,
        frame_length: 0,
        form: 0,
    },
    message_id_start: 0,
    message_id_len: 0,
    pair_count: 0,
    key_count: 0,
    suite_data_start: 0,
    suite_data_len: 0,
    tail: 0,
};

/// How many answers were held, and how many of them were forbidden.
#[derive(Default)]
struct Held {
    count: u64,
    forbidden: u64,
}

impl Held {
    fn told(&mut self, forbidden: bool) {
        self.count += 1;
        self.forbidden += u64::from(forbidden);
    }

    /// Both came about.
    fn end(self, what: &str) {
        assert!(self.forbidden > 0 && self.forbidden < self.count, "{what}");
        compared(self.count, what);
    }

    /// One message by one reader, under each of the policies.
    fn reads(
        &mut self,
        (message, start): (&[u8], u64),
        (reader, asked): (Reader, Asked),
        tables: (&[u32], &[u32]),
        policies: impl IntoIterator<Item = u32>,
    ) {
        let read = |policy| {
            let (mut pairs, mut keys) = (tables.0.to_vec(), tables.1.to_vec());
            let record = crossing::read(message, start, asked, policy, (&mut pairs, &mut keys));
            (record, pairs, keys)
        };
        let without = read(None);
        for policy in policies {
            let forbidden = forbids_reading(policy, reader, message, start);
            if forbidden {
                behind_the_suite(&without.0, message, start);
            }
            let wanted = match forbidden {
                true => (BODY_FORBIDDEN, tables.0.to_vec(), tables.1.to_vec()),
                false => without.clone(),
            };
            let told = read(Some(policy));
            assert!(
                told == wanted,
                "policy {policy}, {asked:?}, start {start}: {told:?} for {wanted:?}, {message:02X?}"
            );
            self.told(forbidden);
        }
    }

    /// One body measured and written, under each of the policies.
    fn writes(&mut self, lent: Lent, out: &[u8], policies: impl IntoIterator<Item = u32>) {
        let write = |policy| {
            let mut out = out.to_vec();
            let length = crossing::length(lent, policy);
            (length, crossing::write(lent, policy, &mut out), out)
        };
        let without = write(None);
        for policy in policies {
            let forbidden = forbids_writing(policy, lent.numbers);
            let refused = BafirolenWritten {
                number: 39,
                position: 0,
                length: 0,
            };
            let wanted = match forbidden {
                true => (refused, refused, out.to_vec()),
                false => without.clone(),
            };
            assert!(write(Some(policy)) == wanted, "policy {policy}: {lent:?}");
            assert!(!forbidden || ![3, 5, 6, 7].contains(&without.0.number));
            self.told(forbidden);
        }
    }
}

/// What is answered without a policy is tested behind the suite.
fn behind_the_suite(record: &BafirolenBody, message: &[u8], start: u64) {
    let opening = if message[start as usize] == 1 { 4 } else { 3 };
    match record.number {
        2 => assert!(record.position > start + opening, "{record:?}"),
        number => assert!(![1, 3, 4, 5, 6, 7].contains(&number), "{record:?}"),
    }
}

/// The policies that there are, and a number that none has.
fn five(random: &mut Random) -> impl Iterator<Item = u32> {
    let unknown = random.between(4, u64::from(u32::MAX)) as u32;
    POLICIES.into_iter().chain([unknown])
}

#[test]
fn generated_reads() {
    let mut held = Held::default();
    let mut random = Random::new(108);
    for seed in seeds(120_000) {
        let case = body_case(seed ^ 0xE0A7_0000);
        let (message, tables) = (&case.message[..], (&case.pair_table, &case.key_table));
        for reader in [case.reader, random.pick(&READERS)] {
            let asked = Asked {
                has_max: case.max.is_some().into(),
                max: case.max.unwrap_or(0),
                ..asked(reader, case.strict.into())
            };
            let policies = five(&mut random);
            let tables = (&tables.0[..], &tables.1[..]);
            held.reads((message, case.start), (reader, asked), tables, policies);
        }
    }
    held.end("reads with a policy and without");
}

#[test]
fn generated_writes() {
    let mut held = Held::default();
    let mut random = Random::new(109);
    for seed in seeds(120_000) {
        let case = body_write_case(seed ^ 0xE0A7_0000);
        held.writes(case.lent(), &case.out, five(&mut random));
    }
    held.end("writes with a policy and without");
}

/// Sample headers cut at every offset, read from every start, by every reader.
#[test]
fn every_cut() {
    let mut held = Held::default();
    for header in samples() {
        for cut in 0..=header.len() {
            for start in 0..=cut as u64 + 1 {
                let message = (&header[..cut], start);
                for reader in READERS {
                    let reader = (reader, asked(reader, start as u32 & 1));
                    held.reads(message, reader, (&[7; 8], &[9; 12]), POLICIES);
                }
            }
        }
    }
    held.end("cut headers with a policy and without");
}

/// The same with one byte replaced by every other.
#[test]
fn every_byte() {
    let mut held = Held::default();
    let mut random = Random::new(110);
    for mut message in samples() {
        for at in 0..message.len() {
            let right = message[at];
            for byte in 0..=0xFF {
                message[at] = byte;
                for reader in READERS {
                    let reader = (reader, asked(reader, byte as u32 & 1));
                    let policies = [3, policy(&mut random)];
                    held.reads((&message, 0), reader, (&[7; 8], &[9; 12]), policies);
                }
            }
            message[at] = right;
        }
    }
    held.end("headers with one byte replaced, with a policy and without");
}

/// What is wanted of an opening with this suite, read by a reader of its version
/// where nothing stands behind the suite.
fn opening(policy: u32, version: u32, suite: u16) -> (u64, u64) {
    let suites = [&SUITES_V1[..], &SUITES_V2];
    let known = |version: u32| suites[version as usize - 1].contains(&suite);
    match (known(version), known(3 - version)) {
        (true, _) if may_read(policy, version) => (2, if version == 1 { 20 } else { 35 }),
        (true, _) => (39, 0),
        (false, true) => (7, 0),
        (false, false) => (6, 0),
    }
}

/// Every suite number of both versions, with nothing behind it.
#[test]
fn every_suite() {
    let mut count = 0;
    for (version, front) in [(1, &[1, 0x80][..]), (2, &[2])] {
        for suite in 0..=u16::MAX {
            let message = [front, &suite.to_be_bytes()].concat();
            for policy in numbers() {
                for reader in [Reader::Either, READERS[version as usize]] {
                    let asked = asked(reader, 0);
                    let tables = (&mut [][..], &mut [][..]);
                    let record = crossing::read(&message, 0, asked, Some(policy), tables);
                    let told = (record.number, record.position);
                    let wanted = opening(policy, version, suite);
                    assert_eq!(told, wanted, "policy {policy}: {message:02X?}");
                    count += 1;
                }
            }
        }
    }
    assert_eq!(count, 2 * (1 << 16) * 16 * 2);
    compared(count, "openings under a policy");
}
