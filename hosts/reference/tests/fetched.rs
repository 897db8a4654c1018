//! What a run on the front of a message says of one on more of it: every two
//! fronts of headers, sections, records and frames that are written by hand.

mod common;

use common::fronts::{Held, Run};
use generator::headers::{header_h, header_v2, hex, samples};
use reference::*;

/// A body, with tables of so many numbers.
fn body(front: &[u8], start: u64, request: Request, numbers: usize) -> Run<Body> {
    let (mut pairs, mut keys) = (vec![7; numbers], vec![9; numbers]);
    let answer = read_header_body_under_policy(front, start, request, &mut pairs, &mut keys);
    (answer, [pairs, keys].concat())
}

const TOLERANT: Request = Request {
    which: Which::Either,
    mode: Mode::Tolerant,
    max: None,
    policy: Policy::None,
};

/// The first asks for all that the others do not.
fn requests() -> [Request; 7] {
    let (mode, policy) = (Mode::Strict, Policy::RequireEncryptRequireDecrypt);
    let of = |which| Request { which, ..TOLERANT };
    [
        TOLERANT,
        Request { mode, ..TOLERANT },
        Request { policy, ..TOLERANT },
        Request {
            max: Some(1),
            ..TOLERANT
        },
        of(Which::V1),
        of(Which::V2),
        Request {
            mode,
            ..of(Which::V2)
        },
    ]
}

/// The samples' rounds: 11 in version 1 and six a key, 9 in version 2 with two
/// keys, whose infos are empty; one less where the context is 00 00.
const ROUNDS: [u64; 6] = [17, 19, 16, 18, 17, 19];

/// At the message's first byte, behind others, and from beyond the end.
#[test]
fn headers() {
    let mut held = Held::default();
    for (header, most) in samples().into_iter().zip(ROUNDS) {
        for (request, numbers) in requests().into_iter().flat_map(|r| [(r, 12), (r, 3)]) {
            for before in [0, 3] {
                let message = [&vec![0xEE; before][..], &header, &[1, 0x80]].concat();
                let ask = |front: &[u8]| body(front, before as u64, request, numbers);
                let rounds = held.message(&message, |body| body.tail, ask);
                assert!(rounds <= most);
                assert!(request != TOLERANT || rounds == most, "{header:02X?}");
            }
            let ask = |front: &[u8]| body(front, 500, request, numbers);
            assert_eq!(held.message(&header, |body| body.tail, ask), 1);
        }
    }
    held.report("fronts of headers");
}

#[test]
fn headers_with_one_byte_replaced() {
    let mut held = Held::default();
    for header in [header_h(), header_v2()] {
        for at in 0..header.len() {
            for byte in [0, 1, 2, 0x7F, 0x80, 0xFF] {
                let mut message = header.clone();
                message[at] = byte;
                let ask = |front: &[u8]| body(front, 0, TOLERANT, 12);
                held.message(&message, |body| body.tail, ask);
            }
        }
    }
    held.report("fronts of headers with one byte replaced");
}

/// A suite, the lengths of ID and suite data, and that of the output.
const REISSUES: [(u32, usize, usize, usize); 5] = [
    (0x0478, 32, 32, 200),
    (0x0578, 32, 32, 99),
    (0x0378, 32, 32, 200),
    (0x0578, 16, 32, 200),
    (0x0478, 32, 0, 0),
];

/// Of version 1 all is read before what is added is looked at, of version 2
/// nothing but the version.
#[test]
fn drafts_reissued() {
    let mut held = Held::default();
    for (draft, most) in samples().into_iter().zip(ROUNDS) {
        let most = if draft[0] == 1 { most } else { 1 };
        for (suite, id, data, room) in REISSUES {
            let reissue = Reissue {
                suite,
                id: &[0x11; 32][..id],
                suite_data: &[0x22; 32][..data],
            };
            let ask = |front: &[u8], start| {
                let mut out = vec![0xEE; room];
                let answer = reissue_header_body(front, start, &reissue, &mut out);
                (answer, out.into_iter().map(u32::from).collect())
            };
            for before in [0, 3] {
                let message = [&vec![0xEE; before][..], &draft, b"rest"].concat();
                let end = (before + draft.len()) as u64;
                let taken = held.message(&message, |_| end, |front| ask(front, before as u64));
                assert_eq!(taken, most, "{draft:02X?}");
            }
            assert_eq!(held.message(&draft, |_| 0, |front| ask(front, 500)), 1);
        }
    }
    held.report("fronts of drafts reissued");
}

/// Context sections, and how many rounds each takes.
const CONTEXTS: [(&str, u64); 13] = [
    ("00 00 EE", 1),
    ("00 02 00 00 EE", 2),
    ("00 02 00 01 EE", 2),
    ("00 03 00 00 00 EE", 2),
    ("00 01 00 00 EE", 2),
    ("00 06 00 01 00 00 00 00 EE", 2),
    ("00 0A 00 02 00 00 00 00 00 00 00 00 EE", 2),
    ("00 08 00 01 00 02 C0 80 00 00 EE", 2),
    ("00 08 00 01 00 00 00 02 C0 80 EE", 2),
    ("00 07 00 01 00 00 00 00 00 EE", 2),
    ("00 04 00 01 00 05 61 62 63 64 65 00 00 EE", 2),
    ("00 0C 00 01 00 04 6C 61 6E 67 00 02 63 79 EE", 2),
    ("00 0C 00 01 00 04 6C 61 6E 67 00 02", 2),
];

#[test]
fn context_sections() {
    let mut held = Held::default();
    for (bytes, rounds) in CONTEXTS {
        for (mode, numbers) in [(Mode::Tolerant, 4), (Mode::Strict, 4), (Mode::Strict, 0)] {
            let ask = |front: &[u8]| {
                let mut table = vec![7; numbers];
                (read_aad_section(front, 0, mode, &mut table), table)
            };
            let taken = held.message(&hex(bytes), |read| read.tail, ask);
            assert_eq!(taken, rounds, "{bytes}");
        }
    }
    held.report("fronts of context sections");
}

/// Values found, and pairs only authenticated, of the same sections.
#[test]
fn uses_of_context_sections() {
    let mut held = Held::default();
    for (bytes, rounds) in CONTEXTS {
        let message = hex(bytes);
        let end = 2 + u64::from(message[1]);
        for key in ["lang", ""] {
            let ask = |front: &[u8]| (find(front, 0, key.as_bytes()), Vec::new());
            assert_eq!(held.message(&message, |_| end, ask), rounds, "{bytes}");
        }
        for room in [14, 0] {
            let ask = |front: &[u8]| {
                let mut out = vec![0xEE; room];
                let answer = write_only_authenticated(front, 0, b"lang", &[0, 4], &mut out);
                (answer, out.into_iter().map(u32::from).collect())
            };
            assert_eq!(held.message(&message, |_| end, ask), rounds, "{bytes}");
        }
    }
    held.report("fronts of sections that are used");
}

/// Key sections, a maximum, and how many rounds each takes.
const KEYS: [(&str, Option<u64>, u64); 7] = [
    ("00 01 00 02 70 31 00 01 61 00 03 AA BB CC EE", None, 7),
    (
        "00 02 00 01 70 00 00 00 00 00 01 70 00 00 00 00 EE",
        None,
        9,
    ),
    ("00 02 00 01 70 00 00 00 00 00 01 70", Some(1), 1),
    ("00 01 00 02 C0 80 00 01 61", None, 3),
    ("00 02 00 01 70 00 01 61 00 01 AA EE EE", None, 9),
    ("00 00 00 01 70", None, 1),
    ("00 01 00 01 70 00 00 FF FF", None, 6),
];

#[test]
fn key_sections() {
    let mut held = Held::default();
    for (bytes, max, rounds) in KEYS {
        for numbers in [0, 12] {
            let ask = |front: &[u8]| {
                let mut table = vec![7; numbers];
                let answer = read_encrypted_data_keys_section(front, 0, max, &mut table);
                (answer, table)
            };
            let taken = held.message(&hex(bytes), |read| read.tail, ask);
            assert_eq!(taken, rounds, "{bytes}");
        }
    }
    held.report("fronts of key sections");
}

/// A regular frame of a byte behind its number; `IV` and `TAG` stand for twelve
/// and sixteen bytes.
const REGULAR: &str = "IV 61 TAG";

/// Frames of one byte, and how many rounds they take.
const FRAMES: [(&str, u64); 7] = [
    ("FFFFFFFF 00000001 IV 00000001 61 TAG EE", 6),
    ("FFFFFFFF 00000001 IV 00000000 TAG EE", 5),
    ("FFFFFFFF 00000001 IV 00000002 6161 TAG EE", 4),
    ("FFFFFFFF 00000002 IV", 2),
    ("00000001 FRAME FFFFFFFF 00000002 IV 00000001 61 TAG EE", 10),
    ("00000001 FRAME 00000002 FRAME 00000002 FRAME", 9),
    ("00000001 FRAME 00000002 FRAME", 9),
];

#[test]
fn frames() {
    let mut held = Held::default();
    for (text, rounds) in FRAMES {
        let text = text.replace("FRAME", REGULAR);
        let text = text.replace("IV", &"A0".repeat(12));
        let message = hex(&text.replace("TAG", &"B0".repeat(16)));
        for numbers in [0, 12] {
            let ask = |front: &[u8]| {
                let mut table = vec![7; numbers];
                (read_frames(front, 0, 1, &mut table), table)
            };
            let taken = held.message(&message, |read| read.tail, ask);
            assert_eq!(taken, rounds, "{text}");
        }
    }
    held.report("fronts of frames");
}

#[test]
fn authentication_records() {
    let mut held = Held::default();
    let bytes: Vec<u8> = (1..=34).collect();
    for (suite, rounds) in [(0x0178, 2), (0x0578, 1), (0x0177, 0)] {
        for (start, length) in [(0, 34), (5, 34), (5, 20), (0, 28)] {
            let ask = |front: &[u8]| (read_header_auth_tag(front, start, suite), Vec::new());
            let taken = held.message(&bytes[..length], |read| read.tail, ask);
            assert_eq!(taken, rounds, "{suite:04X}, {start} of {length}");
        }
        let ask = |front: &[u8]| (read_header_auth_tag(front, 40, suite), Vec::new());
        let taken = held.message(&bytes, |read| read.tail, ask);
        assert_eq!(taken, rounds.min(1), "{suite:04X} beyond the end");
    }
    held.report("fronts of authentication records");
}
