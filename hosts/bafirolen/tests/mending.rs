//! Encrypted data keys dropped from a draft and added to it, in the buffer in
//! which it stands: what the buffer holds then, byte by byte, and what is read
//! of it.

mod common;

use bafirolen::*;
use common::{header_of, key_section, H};

/// So many bytes to stand behind a draft: none of them is 00 or like those about
/// it, so that it shows where they are cleared or moved.
fn behind(count: usize) -> Vec<u8> {
    (1..=251).cycle().take(count).collect()
}

/// A draft in a buffer that goes on behind it.
fn buffer_of(draft: &[u8], room: usize) -> Vec<u8> {
    [draft, &behind(room)].concat()
}

/// An ID that is empty, one that begins another, and one of more than ASCII.
const IDS: [&[u8]; 4] = [b"", b"p", b"p1", "\u{e9}".as_bytes()];

/// IDs that no key has: longer, behind a beginning, other in the last byte or in
/// case, cut within a character, not UTF-8.
const OTHERS: [&[u8]; 6] = [b"p12", b"1", b"p2", b"P1", b"\xC3", b"\xFF"];

/// An empty context in both forms, and one with a pair.
const CONTEXTS: [&[u8]; 3] = [&[0, 0], &[0, 2, 0, 0], H.split_at(20).1.split_at(14).0];

fn key(provider_id: &[u8], nth: usize) -> Key<'_> {
    const BYTES: &[u8] = b"\xAA\x00p1\xBB\x01";
    Key {
        provider_id,
        provider_info: &BYTES[..nth % 4],
        ciphertext: &BYTES[nth % 3..],
    }
}

/// Every list of one to three keys with these IDs, the same one more than once.
fn lists() -> Vec<Vec<Key<'static>>> {
    let keys = |more: usize| (0..).zip(IDS).map(move |(nth, id)| key(id, nth + more));
    let mut lists = vec![];
    for one in keys(0) {
        lists.push(vec![one]);
        for two in keys(1) {
            lists.push(vec![one, two]);
            lists.extend(keys(2).map(|three| vec![one, two, three]));
        }
    }
    lists
}

/// What a reader gives of the draft, all but its places: numbers, message ID,
/// pairs, keys, suite data and tail.
fn read(draft: &[u8]) -> (Numbers, Vec<u8>, Vec<Vec<u8>>, Vec<u8>, u64) {
    let (mut pairs, mut keys) = ([0; 8], [0; 60]);
    let body = read_header_body(draft, 0, Request::default(), &mut pairs, &mut keys).unwrap();
    let pairs = body.pairs().flat_map(|pair| [pair.key, pair.value]);
    let keys = body.keys();
    let keys = keys.flat_map(|key| [key.provider_id, key.provider_info, key.ciphertext]);
    let parts = pairs.chain(keys).map(<[u8]>::to_vec).collect();
    let (id, data) = (body.message_id().to_vec(), body.suite_data().to_vec());
    (body.numbers, id, parts, data, body.tail)
}

/// Every draft of a version, a context and a list of keys, and that list.
fn each(test: impl Fn(&dyn Fn(&[Key]) -> Vec<u8>, &[Key])) {
    for version in [1, 2] {
        for context in CONTEXTS {
            for keys in lists() {
                test(
                    &|keys| header_of(version, context, &key_section(keys)),
                    &keys,
                );
            }
        }
    }
}

#[test]
fn keys_dropped() {
    each(|draft, keys| {
        for id in IDS.into_iter().chain(OTHERS) {
            let kept = keys.iter().copied().filter(|key| key.provider_id != id);
            let kept: Vec<Key> = kept.collect();
            let whole = draft(keys);
            for room in [0, 1, 40] {
                let mut buffer = buffer_of(&whole, room);
                let answer = drop_encrypted_data_keys(&mut buffer, id);
                if kept.is_empty() {
                    assert_eq!(answer, Err(Refusal::NoKeyRemains));
                    assert_eq!(buffer, buffer_of(&whole, room));
                    continue;
                }
                let wanted = draft(&kept);
                assert_eq!(answer, Ok(wanted.len()));
                let freed = vec![0; whole.len() - wanted.len()];
                assert_eq!(buffer, [&wanted[..], &freed, &behind(room)].concat());
                assert_eq!(read(&buffer), read(&wanted));
                // There is none left to drop.
                let before = buffer.clone();
                assert_eq!(drop_encrypted_data_keys(&mut buffer, id), answer);
                assert_eq!(buffer, before);
            }
        }
    });
}

/// Into a buffer that is one byte too short, one of just the length, and longer
/// ones.
#[test]
fn a_key_added() {
    let new = [key(b"", 0), key(b"p", 2), key("\u{e9}p".as_bytes(), 5)];
    each(|draft, keys| {
        for new in new {
            let whole = draft(keys);
            let wanted = draft(&[keys, &[new]].concat());
            let taken = wanted.len() - whole.len();
            for room in [0, 1, taken - 1, taken, taken + 1, taken + 40] {
                let mut buffer = buffer_of(&whole, room);
                let answer = add_encrypted_data_key(&mut buffer, new);
                if room < taken {
                    assert_eq!(answer, Err(Refusal::OutputTooShort));
                    assert_eq!(buffer, buffer_of(&whole, room));
                    continue;
                }
                assert_eq!(answer, Ok(wanted.len()));
                assert_eq!(buffer, [&wanted, &behind(room)[taken..]].concat());
                assert_eq!(read(&buffer), read(&wanted));
            }
        }
    });
}

/// A key whose ID no other has, added and dropped: the first draft, and 00 where
/// the longer one reached.
#[test]
fn added_and_dropped() {
    each(|draft, keys| {
        for new in OTHERS[..4].iter().map(|id| key(id, 3)) {
            let whole = draft(keys);
            let taken = draft(&[keys, &[new]].concat()).len() - whole.len();
            let mut buffer = buffer_of(&whole, taken + 9);
            let longer = add_encrypted_data_key(&mut buffer, new);
            assert_eq!(longer, Ok(whole.len() + taken));
            let tail = drop_encrypted_data_keys(&mut buffer, new.provider_id);
            assert_eq!(tail, Ok(whole.len()));
            let freed = vec![0; taken];
            let wanted = [&whole, &freed, &behind(taken + 9)[taken..]].concat();
            assert_eq!(buffer, wanted);
        }
    });
}

/// Departed stations' keys, and no others: another is added first, and all that
/// is left is the draft with that one.
#[test]
fn one_for_another() {
    each(|draft, keys| {
        let new = key(b"new", 1);
        let mut buffer = buffer_of(&draft(keys), 40);
        add_encrypted_data_key(&mut buffer, new).unwrap();
        let mut tail = 0;
        for gone in IDS {
            tail = drop_encrypted_data_keys(&mut buffer, gone).unwrap();
        }
        assert_eq!(buffer[..tail], draft(&[new]));
    });
}

/// What stands behind a draft is not read: another header, the same draft, and
/// bytes that are no header.
#[test]
fn whatever_stands_behind() {
    let keys = [key(b"p1", 1), key(b"p2", 2)];
    let whole = header_of(1, CONTEXTS[2], &key_section(&keys));
    let wanted = header_of(1, CONTEXTS[2], &key_section(&keys[1..]));
    for behind in [&H[..], &whole, &[0; 90], &[0xFF; 90]] {
        let mut buffer = [&whole[..], behind].concat();
        let tail = drop_encrypted_data_keys(&mut buffer, b"p1").unwrap();
        assert_eq!(buffer[..tail], wanted);
        assert_eq!(buffer[tail..whole.len()], vec![0; whole.len() - tail]);
        assert_eq!(buffer[whole.len()..], *behind);
        let back = add_encrypted_data_key(&mut buffer, keys[0]).unwrap();
        let turned = header_of(1, CONTEXTS[2], &key_section(&[keys[1], keys[0]]));
        assert_eq!(buffer[..back], turned);
        assert_eq!(buffer[whole.len()..], *behind);
    }
}

/// As long as a part can be; and IDs to drop that are longer than any key's.
#[test]
fn long_parts() {
    let text = vec![b'a'; 131_071];
    let part = &text[..65_535];
    let (first, empty) = (key(b"p1", 1), key(b"", 0));
    let long = Key {
        provider_id: part,
        provider_info: part,
        ciphertext: part,
    };
    let draft = |keys: &[Key]| header_of(2, CONTEXTS[0], &key_section(keys));
    let whole = draft(&[first, empty]);
    let taken = 6 + 3 * 65_535;
    let mut buffer = buffer_of(&whole, taken);
    assert_eq!(add_encrypted_data_key(&mut buffer, long), Ok(buffer.len()));
    let longer = draft(&[first, empty, long]);
    assert_eq!(buffer, longer);
    // What 16 bits keep of the last two lengths is that of an ID.
    for other in [&text[..65_534], &text[..65_536], &text] {
        let dropped = drop_encrypted_data_keys(&mut buffer, other);
        assert_eq!((dropped, &buffer), (Ok(longer.len()), &longer));
    }
    let dropped = drop_encrypted_data_keys(&mut buffer, part);
    assert_eq!(dropped, Ok(whole.len()));
    assert_eq!(buffer, [whole, vec![0; taken]].concat());
}

/// All but one of as many keys as there can be dropped in one pass; and one added
/// where the count then takes another byte, and where it is as high as it can be.
#[test]
fn many_keys() {
    let (first, empty) = (key(b"p1", 1), key(b"", 0));
    let draft = |keys: &[Key]| header_of(2, CONTEXTS[1], &key_section(keys));
    let mut keys = vec![empty; 65_534];
    keys.insert(30_000, first);
    let mut buffer = draft(&keys);
    let (length, one) = (buffer.len(), draft(&[first]));
    let dropped = drop_encrypted_data_keys(&mut buffer, b"");
    assert_eq!(dropped, Ok(one.len()));
    let freed = vec![0; length - one.len()];
    assert_eq!(buffer, [one, freed].concat());
    for count in [255, 256, 511, 65_534] {
        let mut keys = vec![empty; count];
        let mut buffer = buffer_of(&draft(&keys), 40);
        let tail = add_encrypted_data_key(&mut buffer, first).unwrap();
        keys.push(first);
        assert_eq!(buffer[..tail], draft(&keys));
    }
}

/// A vector becomes as long as the longer draft, or stays as it was.
#[cfg(feature = "alloc")]
#[test]
fn added_to_a_vector() {
    let (new, bad) = (key(b"p2", 1), key(b"\xFF", 1));
    each(|draft, keys| {
        let whole = draft(keys);
        let wanted = draft(&[keys, &[new]].concat());
        for room in [0, 1, 40] {
            let mut vector = buffer_of(&whole, room);
            assert_eq!(add_encrypted_data_key_to_vec(&mut vector, new), Ok(()));
            assert_eq!(vector, wanted);
        }
        // Without its last bytes, which room behind them would stand for.
        let cut = &whole[..whole.len() - 2];
        let position = whole.len() as u64;
        let mut vector = cut.to_vec();
        let answer = add_encrypted_data_key_to_vec(&mut vector, new);
        assert_eq!(answer, Err(Refusal::Shortage { position }));
        assert_eq!(vector, cut);
        let mut vector = whole.clone();
        let answer = add_encrypted_data_key_to_vec(&mut vector, bad);
        assert_eq!(answer, Err(Refusal::ProviderIdNotUtf8));
        assert_eq!(vector, whole);
    });
}
