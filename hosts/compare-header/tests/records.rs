//! The records of readers as they cross the boundary: what doesn't apply is 0,
//! and every number that can stand for a choice stands for one.

use bafirolen_sys::*;
use compare_header::compared;
use compare_header::crossing::{self, Asked};
use compare_header::records::{body, mode_of, refusal, which_of};
use compare_header::scale::seeds;
use compare_header::under_policy::read_header_body;
use generator::auth_cases::auth_case;
use generator::body_cases::body_case;
use generator::frame_cases::frame_case;
use generator::key_cases::key_case;
use generator::random::Random;
use generator::section_cases::section_case;
use std::mem::{offset_of, size_of};

/// A number that chooses: 0, 1, 2, or any other, also one that is 0, 1 or 2
/// in its lowest byte or bytes.
fn choice(random: &mut Random) -> u32 {
    match random.below(4) {
        0 | 1 => random.below(3) as u32,
        2 => random.pick(&[3, 0xFF, 0x100, 0x101, 0x1_0002, 0x8000_0000, u32::MAX]),
        _ => random.below(1 << 32) as u32,
    }
}

/// The record of a section that was read or refused.
fn section(answer: Result<(u32, u64), reference::Refusal>) -> BafirolenSection {
    let (number, position) = refusal(&answer);
    let (count, tail) = answer.unwrap_or_default();
    BafirolenSection {
        number,
        position,
        count: count.into(),
        tail,
    }
}

/// As `include/bafirolen_records.h` has them; the numbers of a body end where
/// nothing else begins.
#[test]
fn places_of_fields() {
    assert_eq!(size_of::<BafirolenNumbers>(), 28);
    assert_eq!(offset_of!(BafirolenNumbers, form), 24);
    assert_eq!(size_of::<BafirolenBody>(), 104);
    assert_eq!(offset_of!(BafirolenBody, numbers), 16);
    assert_eq!(offset_of!(BafirolenBody, message_id_start), 48);
}

#[test]
fn sections_and_places() {
    let mut random = Random::new(101);
    let mut count = 0;
    for seed in seeds(50_000) {
        let case = section_case(seed);
        let (m, m_len) = (case.message.as_ptr(), case.message.len());
        let (mut ours, mut theirs) = (case.table.clone(), case.table.clone());
        let mode = choice(&mut random);
        // SAFETY: pointers and lengths are those of vectors, all apart.
        let (read, found) = unsafe {
            let (table, len) = (ours.as_mut_ptr(), ours.len());
            let key = &case.asked;
            (
                bafirolen_read_aad_section(m, m_len, case.start, mode, table, len),
                bafirolen_find_value(m, m_len, case.start, key.as_ptr(), key.len()),
            )
        };
        let wanted =
            reference::read_aad_section(&case.message, case.start, mode_of(mode), &mut theirs);
        assert_eq!(read, section(wanted.map(|read| (read.pairs, read.tail))));
        assert!(ours == theirs, "seed {seed}");
        let wanted = reference::find(&case.message, case.start, &case.asked);
        let (number, position) = refusal(&wanted);
        let place = wanted.unwrap_or_default();
        let wanted = BafirolenPlace {
            number,
            position,
            start: place.start,
            len: place.len,
        };
        assert_eq!(found, wanted, "seed {seed}");
        count += 2;
    }
    compared(count, "records of sections and of places");
}

#[test]
fn keys_and_authentication_records() {
    let mut random = Random::new(102);
    let mut count = 0;
    for seed in seeds(50_000) {
        let case = key_case(seed);
        let (mut ours, mut theirs) = (case.table.clone(), case.table.clone());
        let (has_max, max) = (choice(&mut random), case.max.unwrap_or(random.below(4)));
        // SAFETY: as above.
        let read = unsafe {
            let (m, m_len) = (case.message.as_ptr(), case.message.len());
            let (table, len) = (ours.as_mut_ptr(), ours.len());
            bafirolen_read_encrypted_data_keys_section(
                m, m_len, case.start, has_max, max, table, len,
            )
        };
        let max = (has_max != 0).then_some(max);
        let wanted = reference::read_encrypted_data_keys_section(
            &case.message,
            case.start,
            max,
            &mut theirs,
        );
        assert_eq!(read, section(wanted.map(|read| (read.keys, read.tail))));
        assert!(ours == theirs, "seed {seed}");

        let case = auth_case(seed);
        // SAFETY: as above.
        let read = unsafe {
            let (m, m_len) = (case.message.as_ptr(), case.message.len());
            bafirolen_read_header_auth_tag(m, m_len, case.start, case.suite)
        };
        let wanted = reference::read_header_auth_tag(&case.message, case.start, case.suite);
        let (number, position) = refusal(&wanted);
        let record = wanted.ok();
        let wanted = BafirolenAuth {
            number,
            position,
            tail: record.map_or(0, |record| record.tail),
            iv: record.map_or([0; 12], |record| record.iv),
            tag: record.map_or([0; 16], |record| record.tag),
        };
        assert_eq!(read, wanted, "seed {seed}");
        count += 2;
    }
    compared(count, "records of key sections and authentication");
}

#[test]
fn frames() {
    let mut count = 0;
    for seed in seeds(50_000) {
        let case = frame_case(seed);
        let (mut ours, mut theirs) = (case.table.clone(), case.table.clone());
        let length = case.frame_length;
        // SAFETY: as above.
        let read = unsafe {
            let (m, m_len) = (case.message.as_ptr(), case.message.len());
            let (table, len) = (ours.as_mut_ptr(), ours.len());
            bafirolen_read_frames(m, m_len, case.start, length, table, len)
        };
        let wanted = reference::read_frames(&case.message, case.start, length, &mut theirs);
        assert_eq!(read, section(wanted.map(|read| (read.frames, read.tail))));
        assert!(ours == theirs, "seed {seed}");
        count += 1;
    }
    compared(count, "records of frames");
}

/// Numbers of which each chooses something.
fn asked(random: &mut Random, max: Option<u64>) -> Asked {
    let [which, mode, has_max] = [(); 3].map(|_| choice(random));
    Asked {
        which,
        mode,
        has_max,
        max: max.unwrap_or(random.below(4)),
    }
}

#[test]
fn bodies() {
    let mut random = Random::new(103);
    let mut count = 0;
    for seed in seeds(100_000) {
        let case = body_case(seed);
        let (mut pairs, mut keys) = (case.pair_table.clone(), case.key_table.clone());
        let asked = asked(&mut random, case.max);
        let (message, start) = (&case.message, case.start);
        let read = crossing::read(message, start, asked, None, (&mut pairs, &mut keys));
        let (mut their_pairs, mut their_keys) = (case.pair_table, case.key_table);
        let wanted = reference::read_header_body(
            message,
            start,
            which_of(asked.which),
            mode_of(asked.mode),
            (asked.has_max != 0).then_some(asked.max),
            &mut their_pairs,
            &mut their_keys,
        );
        assert_eq!(read, body(wanted), "seed {seed}");
        assert!(pairs == their_pairs && keys == their_keys, "seed {seed}");
        count += 1;
    }
    compared(count, "records of bodies");
}

/// The policy is one more number that chooses.
#[test]
fn bodies_under_a_policy() {
    let mut random = Random::new(104);
    let (mut count, mut forbidden) = (0, 0);
    for seed in seeds(100_000) {
        let case = body_case(seed ^ 0xB0D1_E500);
        let (asked, policy) = (asked(&mut random, case.max), choice(&mut random));
        let message = (&case.message[..], case.start);
        let tables = (&case.pair_table, &case.key_table);
        let (read, _) = read_header_body(policy, message, asked, tables.0, tables.1);
        forbidden += u64::from(read.number == 39);
        count += 1;
    }
    assert!(forbidden > 0 && forbidden < count);
    compared(count, "records of bodies under a policy");
}
