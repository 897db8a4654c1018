//! What is refused of a draft that is to be mended, in the order of the tests,
//! and that no byte of it has changed then.

mod common;

use bafirolen::*;
use common::{header_of, key_section, H};
use std::collections::BTreeSet;

const NEW: Key = Key {
    provider_id: b"p2",
    provider_info: b"b",
    ciphertext: &[0xDD],
};

/// What both answer of a buffer, where they refuse it; nothing has changed then.
/// The room that the key takes is there, or is not.
fn answers(buffer: &[u8], gone: &[u8], new: Key) -> [Result<usize, Refusal>; 2] {
    let (mut dropped, mut added) = (buffer.to_vec(), buffer.to_vec());
    let answers = [
        drop_encrypted_data_keys(&mut dropped, gone),
        add_encrypted_data_key(&mut added, new),
    ];
    for (answer, after) in answers.iter().zip([dropped, added]) {
        assert!(answer.is_ok() || after == buffer, "{answer:?} changed it");
    }
    answers
}

/// What the reader answers, with tables that hold what is here: the tail, and
/// what dropping an ID has to answer then.
fn reader(buffer: &[u8], gone: &[u8]) -> Result<(usize, Result<usize, Refusal>), Refusal> {
    let (mut pairs, mut keys) = ([0; 400], [0; 400]);
    let body = read_header_body(buffer, 0, Request::default(), &mut pairs, &mut keys)?;
    let tail = body.tail as usize;
    let dropped = body.keys().filter(|key| key.provider_id == gone);
    let freed: usize = dropped.clone().map(|key| taken(&key)).sum();
    let all = dropped.count() == body.keys().len();
    let answer = if all {
        Err(Refusal::NoKeyRemains)
    } else {
        Ok(tail - freed)
    };
    Ok((tail, answer))
}

/// How many bytes a key takes.
fn taken(key: &Key) -> usize {
    6 + key.provider_id.len() + key.provider_info.len() + key.ciphertext.len()
}

/// Drafts with one fault, of both versions where both can have it.
fn faults() -> Vec<(u32, Vec<u8>)> {
    let context = &H[20..34];
    let keys = &H[34..48];
    let mut faults = vec![];
    for version in [1, 2] {
        let with = |place: usize, byte: u8| {
            let mut draft = header_of(version, context, keys);
            draft[place] = byte;
            draft
        };
        let of = |context: &[u8], keys: &[u8]| header_of(version, context, keys);
        let first = version == 1;
        let back = if first { 48 } else { 63 };
        faults.push((3, with(0, 3)));
        faults.push((6, with(if first { 3 } else { 2 }, 0x79)));
        faults.push((
            7,
            with(if first { 2 } else { 1 }, if first { 5 } else { 1 }),
        ));
        faults.push((32, of(b"\0\x04\0\x01\0\x05", keys)));
        faults.push((8, of(&[0, 2, 0, 1], keys)));
        faults.push((9, of(&[0, 4, 0, 0, 0, 0], keys)));
        faults.push((10, of(b"\0\x07\0\x01\0\x01\xFF\0\0", keys)));
        faults.push((11, of(b"\0\x07\0\x01\0\0\0\x01\xFF", keys)));
        faults.push((12, of(b"\0\x0A\0\x02\0\0\0\0\0\0\0\0", keys)));
        faults.push((14, of(b"\0\x07\0\x01\0\0\0\0x", keys)));
        faults.push((38, of(context, &[0, 0])));
        faults.push((16, of(context, b"\0\x01\0\x01\xFF\0\0\0\0")));
        faults.push((17, with(back, 3)));
        faults.push((20, with(back, 1)));
        faults.push((2, of(context, b"\0\x02\0\0\0\0\xFF\xFF")));
        if first {
            faults.push((5, with(1, 0x81)));
            faults.push((18, with(back + 4, 1)));
            faults.push((19, with(back + 5, 13)));
        }
    }
    faults
}

/// Those of reading, which come first: also where no key would remain, where the
/// key's ID is not UTF-8 and a part of it is too long, and with room and without.
#[test]
fn the_readers_refusals() {
    let long = vec![0; 65_536];
    let bad = Key {
        provider_id: b"\xFF",
        provider_info: &long,
        ciphertext: &[],
    };
    let mut seen = BTreeSet::new();
    for (number, draft) in faults() {
        for room in [0, 100] {
            let buffer = [draft.clone(), vec![0xFF; room]].concat();
            let refusal = reader(&buffer, b"p1").unwrap_err();
            assert_eq!(refusal.number(), number);
            for (gone, new) in [(&b"p1"[..], NEW), (b"p", bad)] {
                assert_eq!(answers(&buffer, gone, new), [Err(refusal); 2]);
            }
        }
        seen.insert(number);
    }
    let listed = [
        2, 3, 5, 6, 7, 32, 8, 9, 10, 11, 12, 14, 38, 16, 17, 18, 19, 20,
    ];
    assert_eq!(seen, BTreeSet::from(listed));
}

/// Every cut of a draft wants what the reader wants.
#[test]
fn cuts() {
    for version in [1, 2] {
        for context in [&[0, 0][..], &[0, 2, 0, 0], &H[20..34]] {
            let draft = header_of(version, context, &key_section(&[NEW, NEW]));
            for cut in 0..draft.len() {
                let refusal = reader(&draft[..cut], b"p2").unwrap_err();
                assert_eq!(refusal.number(), 2);
                assert!(refusal.position() > cut as u64);
                assert_eq!(answers(&draft[..cut], b"p2", NEW), [Err(refusal); 2]);
            }
            let refused = [Err(Refusal::NoKeyRemains), Err(Refusal::OutputTooShort)];
            assert_eq!(answers(&draft, b"p2", NEW), refused);
        }
    }
}

/// Every byte of a draft with every value: what the reader refuses is refused
/// alike, and what it accepts is refused only where no key would remain, or where
/// there is no room for the new one.
#[test]
fn changed_bytes() {
    let keys = [
        NEW,
        Key {
            provider_id: b"p1",
            ..NEW
        },
    ];
    for version in [1, 2] {
        for context in [&[0, 2, 0, 0][..], &H[20..34]] {
            let draft = header_of(version, context, &key_section(&keys));
            for place in 0..draft.len() {
                for byte in 0..=255 {
                    let mut buffer = draft.clone();
                    buffer[place] = byte;
                    let wanted = match reader(&buffer, b"p1") {
                        Err(refusal) => [Err(refusal); 2],
                        Ok((tail, dropped)) => {
                            let room = buffer.len() - tail >= taken(&NEW);
                            let added = tail + taken(&NEW);
                            let added = if room {
                                Ok(added)
                            } else {
                                Err(Refusal::OutputTooShort)
                            };
                            [dropped, added]
                        }
                    };
                    assert_eq!(answers(&buffer, b"p1", NEW), wanted);
                }
            }
        }
    }
}

/// 40 where every key has the ID, and not where one has another.
#[test]
fn no_key_remains() {
    let refusal = Refusal::NoKeyRemains;
    assert_eq!(refusal.number(), 40);
    assert_eq!(refusal.position(), 0);
    assert_eq!(refusal.remedy(), Remedy::Reject);
    let words = "refusal 40: no encrypted data key would remain";
    assert_eq!(refusal.to_string(), words);
    for count in 1..5 {
        let mut keys = vec![NEW; count];
        let draft = header_of(1, &[0, 0], &key_section(&keys));
        assert_eq!(answers(&draft, b"p2", NEW)[0], Err(refusal));
        assert_eq!(answers(&draft, b"p", NEW)[0], Ok(draft.len()));
        for other in 0..count {
            keys[other].provider_id = b"p1";
            let draft = header_of(1, &[0, 0], &key_section(&keys));
            let one = header_of(1, &[0, 0], &key_section(&keys[other..=other]));
            assert_eq!(answers(&draft, b"p2", NEW)[0], Ok(one.len()));
            keys[other].provider_id = b"p2";
        }
    }
}

/// 16, 27 and 28, each behind the one before it, of a key with several faults.
#[test]
fn a_key_with_faults() {
    let long = vec![b'a'; 65_536];
    let mut bad = long.clone();
    bad[65_535] = 0xC3; // the beginning of a character, behind all that would fit
    let (good, just) = (&NEW.provider_info, &long[..65_535]);
    let draft = header_of(1, &H[20..34], &H[34..48]);
    let longest = draft.len() + 6 + 3 * 65_536;
    let parts: [&[u8]; 3] = [good, just, &long];
    for room in [0, longest - draft.len()] {
        let buffer = [draft.clone(), vec![0xEE; room]].concat();
        for provider_id in [good, just, &long, b"\xFF", &bad, &bad[1..]] {
            for provider_info in parts {
                for ciphertext in parts {
                    let new = Key {
                        provider_id,
                        provider_info,
                        ciphertext,
                    };
                    let all = [provider_id, provider_info, ciphertext];
                    let taken = taken(&new);
                    let wanted = if std::str::from_utf8(provider_id).is_err() {
                        Err(Refusal::ProviderIdNotUtf8)
                    } else if all.iter().any(|part| part.len() > 65_535) {
                        Err(Refusal::CountOrPartTooLong)
                    } else if taken > room {
                        Err(Refusal::OutputTooShort)
                    } else {
                        Ok(draft.len() + taken)
                    };
                    assert_eq!(answers(&buffer, b"", new)[1], wanted);
                }
            }
        }
    }
}

/// With 65,535 keys there is no room for another, however empty it is; behind 16
/// and before 28.
#[test]
fn as_many_keys_as_there_can_be() {
    let empty = Key {
        provider_id: b"",
        provider_info: b"",
        ciphertext: b"",
    };
    let draft = header_of(2, &[0, 0], &key_section(&vec![empty; 65_535]));
    for room in [0, 6] {
        let buffer = [draft.clone(), vec![0; room]].concat();
        let too_many = Err(Refusal::CountOrPartTooLong);
        let refused = [Err(Refusal::NoKeyRemains), too_many];
        assert_eq!(answers(&buffer, b"", empty), refused);
        let bad = Key {
            provider_id: b"\xFF",
            ..empty
        };
        let refused = [Ok(draft.len()), Err(Refusal::ProviderIdNotUtf8)];
        assert_eq!(answers(&buffer, b"p", bad), refused);
    }
}

/// As long as a buffer may be, and one byte longer. Nearly all of it is never
/// touched, so that it takes no memory.
#[test]
fn four_gibibytes() {
    let draft = header_of(1, &[0, 0], &key_section(&[NEW, NEW]));
    let mut buffer = vec![0; 1 << 32];
    buffer[..draft.len()].copy_from_slice(&draft);
    let refused = Err(Refusal::NotAddressable);
    assert_eq!(drop_encrypted_data_keys(&mut buffer, b"p2"), refused);
    assert_eq!(add_encrypted_data_key(&mut buffer, NEW), refused);
    assert_eq!(buffer[..draft.len()], draft);
    let whole = &mut buffer[..(1 << 32) - 1];
    let refused = Err(Refusal::NoKeyRemains);
    assert_eq!(drop_encrypted_data_keys(whole, b"p2"), refused);
    let new = Key {
        provider_id: b"p3",
        ..NEW
    };
    assert_eq!(add_encrypted_data_key(whole, new), Ok(draft.len() + 10));
    assert_eq!(drop_encrypted_data_keys(whole, b"p3"), Ok(draft.len()));
    assert_eq!(whole[..draft.len()], draft);
}
