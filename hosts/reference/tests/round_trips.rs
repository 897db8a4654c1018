//! What is written is read again, and what is read is written again.

mod common;

use common::{key_parts, pair_parts, parts, report};
use generator::body_cases::body_case;
use generator::fields::{fields, Fields};
use generator::image::Form;
use generator::random::Random;
use generator::sections::stretch;
use generator::tables::lend;
use reference::*;

/// The fields at the places of a body that was read.
fn gives(fields: &Fields, message: &[u8], body: &Body, pairs: &[u32], keys: &[u32]) {
    assert_eq!(body.numbers(), Numbers::from(fields.numbers()));
    assert_eq!(body.id.within(message), Some(&fields.id[..]));
    assert_eq!(
        body.suite_data.within(message),
        Some(&fields.suite_data[..])
    );
    assert_eq!(
        parts(message, &pairs[..4 * body.pairs as usize]),
        pair_parts(&fields.pairs)
    );
    assert_eq!(
        parts(message, &keys[..6 * body.keys as usize]),
        key_parts(&fields.keys)
    );
}

#[test]
fn written_then_read() {
    const SEEDS: u64 = 150_000;
    let mut compared = 0;
    for seed in 0..SEEDS {
        let mut random = Random::new(seed);
        let mut fields = fields(&mut random);
        if seed % 1_000 == 0 {
            let total = 65_533 - random.index(3);
            stretch(&mut random, &mut fields.pairs, total);
            fields.form = 0;
        }
        let lent = lend(&mut random, &fields.pairs, &fields.keys);
        let image = fields.image().bytes;
        let before = random.length(20);
        let behind = random.length(20);
        let mut message = random.bytes(before + image.len() + behind);
        let kept = message.clone();
        let length = write_header_body(
            &Numbers::from(fields.numbers()),
            &fields.id,
            &fields.suite_data,
            &lent.text,
            &lent.pairs,
            &lent.keys,
            &mut message[before..],
        );
        let end = before + image.len();
        assert_eq!(length, Ok(image.len() as u64), "seed {seed}");
        assert_eq!(message[before..end], image, "seed {seed}");
        assert_eq!(
            (&message[..before], &message[end..]),
            (&kept[..before], &kept[end..])
        );

        let one = if fields.version == 1 {
            Which::V1
        } else {
            Which::V2
        };
        for (which, mode) in [
            (Which::Either, Mode::Tolerant),
            (Which::Either, Mode::Strict),
            (one, Mode::Tolerant),
            (one, Mode::Strict),
        ] {
            let mut pairs = vec![0; 4 * fields.pairs.len()];
            let mut keys = vec![0; 6 * fields.keys.len()];
            let max = Some(fields.keys.len() as u64);
            let body = read_header_body(
                &message,
                before as u64,
                which,
                mode,
                max,
                &mut pairs,
                &mut keys,
            );
            compared += 1;
            if fields.form != 0 && mode == Mode::Strict {
                assert_eq!(body, Err(Refusal::of(21)), "seed {seed}");
                continue;
            }
            let body = body.unwrap_or_else(|refusal| panic!("seed {seed}: {refusal:?}"));
            assert_eq!(body.tail, end as u64, "seed {seed}");
            gives(&fields, &message, &body, &pairs, &keys);
        }
    }
    report("written then read", compared);
}

/// Bodies of both forms, at any start: each is marked as the form that it has,
/// and written again to the bytes that were read.
#[test]
fn both_forms() {
    const SEEDS: u64 = 100_000;
    let (mut compared, mut old_forms) = (0, 0);
    for seed in 0..SEEDS {
        let mut random = Random::new(!seed);
        let mut fields = fields(&mut random);
        for form in [Form::Today, Form::Old] {
            // Only an empty context has an old form.
            if form == Form::Old && !fields.pairs.is_empty() {
                continue;
            }
            fields.form = form.mark();
            old_forms += u64::from(fields.form);
            compared += refiled(&mut random, &fields);
        }
    }
    println!("{old_forms} of them with 00 02 00 00");
    assert!(old_forms > SEEDS / 10);
    report("bodies of both forms", compared);
}

/// The image of the fields, read by every reader that takes it, and written
/// again; answers how many.
fn refiled(random: &mut Random, fields: &Fields) -> u64 {
    let image = fields.image().bytes;
    let (before, behind) = (random.length(20), random.length(20));
    let mut message = random.bytes(before);
    message.extend_from_slice(&image);
    message.extend(random.bytes(behind));
    let one = [Which::V1, Which::V2][fields.version as usize - 1];
    let mut pairs = vec![0; 4 * fields.pairs.len()];
    let mut keys = vec![0; 6 * fields.keys.len()];
    let start = before as u64;
    for which in [Which::Either, one] {
        let mut read =
            |mode| read_header_body(&message, start, which, mode, None, &mut pairs, &mut keys);
        let strict = read(Mode::Strict);
        let body = read(Mode::Tolerant).unwrap();
        match fields.form {
            0 => assert_eq!(strict, Ok(body)),
            _ => assert_eq!(strict, Err(Refusal::of(21))),
        }
        gives(fields, &message, &body, &pairs, &keys);
        is_written_again(&body, &message, &pairs, &keys, &image);
    }
    2
}

/// What is written again is the image, whose length is known before: into an
/// output that just holds it, and into a longer one, whose rest keeps; a shorter
/// one is refused.
fn is_written_again(body: &Body, message: &[u8], pairs: &[u32], keys: &[u32], image: &[u8]) {
    let length = image.len();
    let numbers = &body.numbers();
    let id = body.id.within(message).unwrap();
    let data = body.suite_data.within(message).unwrap();
    let pairs = &pairs[..4 * body.pairs as usize];
    let keys = &keys[..6 * body.keys as usize];
    let measured = header_body_len(numbers, id, data, message, pairs, keys);
    assert_eq!(measured, Ok(length as u64));
    let write = |out: &mut [u8]| write_header_body(numbers, id, data, message, pairs, keys, out);
    for room in [length, length + 7] {
        let mut out = vec![0xEE; room];
        assert_eq!(write(&mut out), Ok(length as u64));
        assert_eq!(out[..length], *image);
        assert!(out[length..].iter().all(|&byte| byte == 0xEE));
    }
    let mut out = vec![0xEE; length - 1];
    assert_eq!(write(&mut out), Err(Refusal::of(28)));
    assert!(out.iter().all(|&byte| byte == 0xEE));
}

/// Whatever is accepted, damaged or not, is written again to the bytes it was
/// read from.
#[test]
fn read_then_written() {
    const SEEDS: u64 = 400_000;
    let (mut compared, mut old_forms) = (0, 0);
    for seed in 1_000_000..1_000_000 + SEEDS {
        let case = body_case(seed);
        let (mut pairs, mut keys) = (vec![0; 4 * 64], vec![0; 6 * 64]);
        let answer = read_header_body(
            &case.message,
            case.start,
            Which::Either,
            Mode::Tolerant,
            None,
            &mut pairs,
            &mut keys,
        );
        let Ok(body) = answer else { continue };
        let image = &case.message[case.start as usize..body.tail as usize];
        let section = if body.version == 1 { 20 } else { 35 };
        let old = image[section..section + 4] == [0, 2, 0, 0];
        assert_eq!(body.form, u32::from(old), "seed {seed}");
        is_written_again(&body, &case.message, &pairs, &keys, image);
        old_forms += body.form;
        compared += 1;
    }
    assert!(compared >= 100_000, "{compared}");
    assert!(old_forms >= 5_000, "{old_forms}");
    report("read then written", compared);
}

#[test]
fn sections_and_records_both_ways() {
    const SEEDS: u64 = 100_000;
    for seed in 0..SEEDS {
        let mut random = Random::new(seed ^ 0x5EC7);
        let fields = fields(&mut random);
        let lent = lend(&mut random, &fields.pairs, &fields.keys);
        let mut out = vec![0; 1 << 16];

        let length = write_aad_section(&lent.text, &lent.pairs, &mut out).unwrap();
        let mut pairs = vec![0; lent.pairs.len()];
        let read = read_aad_section(&out, 0, Mode::Strict, &mut pairs).unwrap();
        assert_eq!(
            (read.pairs as usize, read.tail),
            (fields.pairs.len(), length)
        );
        assert_eq!(
            parts(&out, &pairs),
            pair_parts(&fields.pairs),
            "seed {seed}"
        );
        for (key, value) in &fields.pairs {
            assert_eq!(find_part(&out, 0, key), value, "seed {seed}");
            assert!(find(&out, 0, key).is_ok(), "seed {seed}");
        }

        let length = write_encrypted_data_keys_section(&lent.text, &lent.keys, &mut out).unwrap();
        let mut keys = vec![0; lent.keys.len()];
        let read = read_encrypted_data_keys_section(&out, 0, None, &mut keys).unwrap();
        assert_eq!((read.keys as usize, read.tail), (fields.keys.len(), length));
        assert_eq!(parts(&out, &keys), key_parts(&fields.keys), "seed {seed}");

        let (iv, tag) = (random.bytes(12), random.bytes(16));
        let length = write_header_auth_tag(fields.suite, &iv, &tag, &mut out).unwrap();
        let read = read_header_auth_tag(&out, 0, fields.suite).unwrap();
        let stored = if fields.version == 1 { iv } else { vec![0; 12] };
        assert_eq!(
            (&read.iv[..], &read.tag[..], read.tail),
            (&stored[..], &tag[..], length)
        );
    }
    report("sections and records both ways", 3 * SEEDS);
}
