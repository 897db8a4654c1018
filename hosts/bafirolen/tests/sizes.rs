//! What is written takes as many bytes as the docs say: it fits an output of
//! just so many, and none that is one shorter.

use bafirolen::{
    frames_len, header_body_len, write_aad_section, write_encrypted_data_keys_section,
    write_frames, write_header_body, write_only_authenticated, Draft, Form, Numbers, Refusal,
    FRAMED,
};

/// Places of the lengths given, one after the other.
fn table(lengths: &[u32]) -> Vec<u32> {
    let mut at = 0;
    let places = lengths.iter().map(|&length| {
        at += length;
        [at - length, length]
    });
    places.flatten().collect()
}

fn takes(length: usize, write: impl Fn(&mut [u8]) -> Result<usize, Refusal>) {
    assert_eq!(write(&mut vec![0; length]), Ok(length));
    let refused = write(&mut vec![0; length - 1]);
    assert_eq!(refused, Err(Refusal::OutputTooShort));
}

fn body(version: usize, form: Form, pairs: &[u32], keys: &[u32], text: &[u8]) -> usize {
    let (id, data) = ([7; 32], [8; 32]);
    let draft = if version == 1 {
        let numbers = Numbers::version_1(0x0178, FRAMED, 9);
        Draft::new(numbers.with_form(form), &id[..16])
    } else {
        let numbers = Numbers::version_2(0x0578, FRAMED, 9);
        Draft::new(numbers.with_form(form), &id).with_suite_data(&data)
    };
    let (pair_table, key_table) = (table(pairs), table(keys));
    let draft = draft.with_tables(text, &pair_table, &key_table);
    let parts: u32 = pairs.iter().chain(keys).sum();
    let today_without_pairs = pairs.is_empty() && form == Form::Today;
    let length = [34, 76][version - 1]
        + if today_without_pairs { 0 } else { 2 }
        + 4 * (pairs.len() / 2)
        + 6 * (keys.len() / 3)
        + parts as usize;
    takes(length, |out| write_header_body(&draft, out));
    assert_eq!(header_body_len(&draft), Ok(length));
    length
}

#[test]
fn as_the_docs_say() {
    let text: Vec<u8> = (b'a'..=b'z').cycle().take(600).collect();
    let pairs: [&[u32]; 4] = [&[], &[0, 0], &[1, 3, 2, 0], &[5, 9, 4, 7, 250, 80]];
    let keys: [&[u32]; 3] = [&[1, 0, 2], &[0, 0, 0], &[2, 1, 3, 9, 0, 300]];
    let mut longest = 0;
    for pairs in pairs {
        let places = table(pairs);
        let parts: u32 = pairs.iter().sum();
        let length = if pairs.is_empty() { 2 } else { 4 } + 2 * pairs.len() + parts as usize;
        takes(length, |out| write_aad_section(&text, &places, out));
        for keys in keys {
            let today = |version| body(version, Form::Today, pairs, keys, &text);
            let longer = [1, 2].map(today);
            longest = longest.max(longer[1]);
            if pairs.is_empty() {
                let old = |version| body(version, Form::Old, pairs, keys, &text);
                assert_eq!([1, 2].map(old), longer.map(|length| length + 2));
            }
        }
    }
    for keys in keys {
        let places = table(keys);
        let parts: u32 = keys.iter().sum();
        let length = 2 + 2 * keys.len() + parts as usize;
        let write = |out: &mut [u8]| write_encrypted_data_keys_section(&text, &places, out);
        takes(length, write);
    }
    assert_eq!(longest, 76 + 2 + 12 + 12 + 355 + 315);
}

/// A section of pairs with these lengths, whose keys are all required: what is
/// written is as long as the section without its length.
#[test]
fn of_required_pairs() {
    let text: Vec<u8> = (b'a'..=b'z').cycle().take(600).collect();
    let pairs: [&[u32]; 3] = [&[0, 0], &[1, 3, 2, 0], &[5, 9, 4, 7, 250, 80]];
    for pairs in pairs {
        let places = table(pairs);
        let required: Vec<u32> = places
            .chunks(4)
            .flat_map(|pair| [pair[0], pair[1]])
            .collect();
        let mut section = [0; 600];
        let length = write_aad_section(&text, &places, &mut section).unwrap();
        let parts: u32 = pairs.iter().sum();
        assert_eq!(length - 2, 2 + 2 * pairs.len() + parts as usize);
        takes(length - 2, |out| {
            write_only_authenticated(&section, 0, &text, &required, out)
        });
        // Where none is required, no room is needed.
        let written = write_only_authenticated(&section, 0, &text, &[], &mut []);
        assert_eq!(written, Ok(0));
    }
}

/// 32 bytes and the frame length for each frame but the last, which takes 40 and
/// its content.
#[test]
fn of_frames() {
    let text: Vec<u8> = (b'a'..=b'z').cycle().take(600).collect();
    for (count, frame_length, last) in [(1, 9, 0), (1, 9, 9), (2, 1, 0), (3, 100, 99), (7, 40, 40)]
    {
        let mut lengths = [12, frame_length, 16].repeat(count);
        lengths[3 * count - 2] = last;
        let places: Vec<u32> = lengths.iter().flat_map(|&length| [3, length]).collect();
        let length = (count - 1) * (32 + frame_length as usize) + 40 + last as usize;
        takes(length, |out| {
            write_frames(frame_length, &text, &places, out)
        });
        assert_eq!(frames_len(frame_length, &text, &places), Ok(length));
    }
}
