//! What an accepted answer gives: each part is the message's own, and no
//! part of one pair or key comes with another's.

mod common;

use bafirolen::*;
use common::H;

/// Three pairs, of which one has an empty key and one an empty value: 2 bytes
/// of count, and 6, 7 and 6 of pairs.
const THREE_PAIRS: &[u8; 23] = b"\x00\x15\x00\x03\
    \x00\x01a\x00\x01A\
    \x00\x00\x00\x03BBB\
    \x00\x02cc\x00\x00";

/// Two keys that have no part in common.
const TWO_KEYS: &[u8; 23] = b"\x00\x02\
    \x00\x01p\x00\x00\x00\x02\x11\x12\
    \x00\x02qq\x00\x01i\x00\x03\x21\x22\x23";

fn pair<'m>(key: &'m [u8], value: &'m [u8]) -> Pair<'m> {
    Pair { key, value }
}

fn key<'m>(provider_id: &'m [u8], provider_info: &'m [u8], ciphertext: &'m [u8]) -> Key<'m> {
    Key {
        provider_id,
        provider_info,
        ciphertext,
    }
}

#[test]
fn of_header_h() {
    let (mut pairs, mut keys) = ([7; 9], [9; 13]);
    let body = read_header_body(H, 0, Request::default(), &mut pairs, &mut keys).unwrap();
    assert_eq!(body.numbers, Numbers::version_1(0x0178, 2, 4_096));
    assert_eq!(body.tail, 58);
    assert_eq!(body.message_id(), &H[4..20]);
    assert_eq!(body.message_id_place(), Place { start: 4, len: 16 });
    assert_eq!(body.context_start(), 20);
    assert_eq!(body.suite_data(), b"");
    assert_eq!(body.suite_data_place(), Place { start: 0, len: 0 });
    assert_eq!(body.pair_table(), [26, 4, 32, 2]);
    assert_eq!(body.key_table(), [38, 2, 42, 1, 45, 3]);
    assert!(body.pairs().eq([pair(b"lang", b"cy")]));
    assert!(body.keys().eq([key(b"p1", b"a", &[0xAA, 0xBB, 0xCC])]));
    assert_eq!(find_part(H, body.context_start(), b"lang"), b"cy");
    // Behind what was filled the tables are as they were.
    assert_eq!(pairs[4..], [7; 5]);
    assert_eq!(keys[6..], [9; 7]);
}

/// H's front and back with sections of several pairs and keys, and bytes
/// before it.
#[test]
fn of_several_pairs_and_keys() {
    let message = [b"xyz", &H[..20], THREE_PAIRS, TWO_KEYS, &H[48..]].concat();
    let (mut pairs, mut keys) = ([0; 12], [0; 12]);
    let body = read_header_body(&message, 3, Request::default(), &mut pairs, &mut keys).unwrap();
    assert_eq!(body.context_start(), 23);
    assert_eq!(body.tail, message.len() as u64);
    let wanted = [pair(b"a", b"A"), pair(b"", b"BBB"), pair(b"cc", b"")];
    assert!(body.pairs().eq(wanted));
    let wanted = [
        key(b"p", b"", &[0x11, 0x12]),
        key(b"qq", b"i", b"\x21\x22\x23"),
    ];
    assert!(body.keys().eq(wanted));
    for pair in body.pairs() {
        let place = find_value(&message, body.context_start(), pair.key).unwrap();
        let found = place.within(&message).unwrap();
        assert_eq!(found.as_ptr_range(), pair.value.as_ptr_range());
    }
    // Written again from the answer, with the message as the text.
    let draft = Draft::new(body.numbers, body.message_id()).with_tables(
        &message,
        body.pair_table(),
        body.key_table(),
    );
    assert_eq!(body.draft(), draft);
    let mut out = [0; 100];
    let length = write_header_body(&draft, &mut out).unwrap();
    assert_eq!(out[..length], message[3..]);
}

#[test]
fn of_version_2() {
    let (id, data): (Vec<u8>, Vec<u8>) = ((0..32).collect(), (100..132).collect());
    let message = [
        b"\x02\x05\x78",
        &id[..],
        THREE_PAIRS,
        TWO_KEYS,
        b"\x01\0\0\0\0",
        &data,
    ]
    .concat();
    let (mut pairs, mut keys) = ([0; 12], [0; 12]);
    let body = read_header_body(&message, 0, Request::default(), &mut pairs, &mut keys).unwrap();
    assert_eq!(body.numbers, Numbers::version_2(0x0578, NON_FRAMED, 0));
    assert_eq!((body.message_id(), body.suite_data()), (&id[..], &data[..]));
    assert_eq!(body.context_start(), 35);
    assert_eq!(body.suite_data_place(), Place { start: 86, len: 32 });
    assert_eq!((body.pairs().len(), body.keys().len()), (3, 2));
    assert_eq!(body.tail, 118);
    let mut out = [0; 118];
    assert_eq!(write_header_body(&body.draft(), &mut out), Ok(118));
    assert_eq!(out[..], message);
}

#[test]
fn of_sections() {
    let mut table = [0; 20];
    let context = read_aad_section(THREE_PAIRS, 0, Mode::Strict, &mut table).unwrap();
    assert_eq!(context.tail, 23);
    assert_eq!(context.pair_table().len(), 12);
    let wanted = [pair(b"a", b"A"), pair(b"", b"BBB"), pair(b"cc", b"")];
    assert!(context.pairs().eq(wanted));
    let section = read_encrypted_data_keys_section(TWO_KEYS, 0, Some(2), &mut table).unwrap();
    assert_eq!(section.tail, 23);
    assert_eq!(section.key_table().len(), 12);
    let wanted = [
        key(b"p", b"", &[0x11, 0x12]),
        key(b"qq", b"i", b"\x21\x22\x23"),
    ];
    assert!(section.keys().eq(wanted));
}

/// How many are left is known at each step, a copy goes on by itself, and
/// behind the last there is nothing.
#[test]
fn of_iterators_step_by_step() {
    let mut table = [0; 12];
    let context = read_aad_section(THREE_PAIRS, 0, Mode::Strict, &mut table).unwrap();
    let mut pairs = context.pairs();
    assert_eq!(pairs.next(), Some(pair(b"a", b"A")));
    let mut copy = pairs.clone();
    assert_eq!((pairs.len(), copy.len()), (2, 2));
    assert_eq!(copy.next(), Some(pair(b"", b"BBB")));
    assert_eq!(copy.next(), Some(pair(b"cc", b"")));
    assert_eq!((copy.next(), copy.next()), (None, None));
    assert_eq!((pairs.len(), copy.len()), (2, 0));
    assert_eq!(
        format!("{pairs:?}"),
        "[Pair { key: [], value: [66, 66, 66] }, Pair { key: [99, 99], value: [] }]"
    );
    let mut keys = read_encrypted_data_keys_section(TWO_KEYS, 0, None, &mut table)
        .unwrap()
        .keys();
    assert_eq!(keys.next(), Some(key(b"p", b"", &[0x11, 0x12])));
    assert_eq!(keys.len(), 1);
    assert_eq!(
        format!("{keys:?}"),
        "[Key { provider_id: [113, 113], provider_info: [105], ciphertext: [33, 34, 35] }]"
    );
}

/// A message doesn't stand in what a failed assertion prints.
#[test]
fn shown_by_their_fields() {
    let mut message = H.to_vec();
    message.extend([0x77; 1_000]);
    let (mut pairs, mut keys) = ([0; 4], [0; 6]);
    let body = read_header_body(&message, 0, Request::default(), &mut pairs, &mut keys).unwrap();
    let shown = format!("{body:?}");
    assert!(shown.starts_with("Body { numbers: Numbers { version: 1, "));
    assert!(shown.contains("pairs: [Pair { key: [108, 97, 110, 103], value: [99, 121] }]"));
    assert!(shown.contains("provider_id: [112, 49]"));
    assert!(shown.ends_with("suite_data: [], tail: 58 }"));
    assert!(!shown.contains("119"));
}

#[test]
fn of_authentication_records() {
    let bytes: [u8; 28] = std::array::from_fn(|i| i as u8);
    let record = read_header_auth_tag(&bytes, 0, 0x0178).unwrap();
    assert_eq!((&record.iv[..], &record.tag[..]), bytes.split_at(12));
    assert_eq!(record.tail, 28);
}
