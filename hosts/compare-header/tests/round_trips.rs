//! What is written is read again, and what is read is written again.

use bafirolen::{Draft, Form, Mode, Numbers, Request, Which, FRAMED};
use compare_header::expected::parts_are;
use compare_header::numbers::{number, numbers, Body};
use compare_header::reads::Tables;
use compare_header::scale::seeds;
use compare_header::{compared, reads, request, requests, writes};
use generator::body_cases::{body_case, BodyCase};
use generator::fields::{fields, Fields};
use generator::image::{self, Image};
use generator::random::Random;
use generator::tables::lend;

fn stored(fields: &Fields) -> Numbers {
    numbers(&fields.numbers().into())
}

/// What was read is what the fields say.
fn gives(seed: u64, fields: &Fields, message: &[u8], body: &Body, tables: &Tables) {
    assert_eq!(body.numbers, stored(fields), "seed {seed}");
    let parts = fields
        .pairs
        .iter()
        .flat_map(|(key, value)| [&key[..], value]);
    parts_are(seed, message, &tables.pairs, parts);
    let parts = fields.keys.iter().flatten().map(|part| &part[..]);
    parts_are(seed, message, &tables.keys, parts);
}

/// Strict readers refuse the old form by 21, and all others take either.
#[test]
fn written_then_read() {
    let (mut count, mut old_forms) = (0, 0);
    for seed in seeds(60_000) {
        let random = &mut Random::new(seed);
        let fields = fields(random);
        let lent = lend(random, &fields.pairs, &fields.keys);
        let image = fields.image().bytes;
        let room = image.len() + random.index(5);
        let draft = Draft::new(stored(&fields), &fields.id)
            .with_suite_data(&fields.suite_data)
            .with_tables(&lent.text, &lent.pairs, &lent.keys);
        let (answer, out) = writes::write_header_body(draft, &random.bytes(room));
        assert_eq!(answer, Ok(image.len()), "seed {seed}");
        assert!(out[..image.len()] == image, "seed {seed}");
        old_forms += fields.form;
        for request in requests(fields.version) {
            let pairs = vec![3; 4 * fields.pairs.len()];
            let keys = vec![5; 6 * fields.keys.len()];
            let (answer, tables) = reads::read_header_body(&out, 0, request, &pairs, &keys);
            count += 1;
            if fields.form != 0 && request.mode == Mode::Strict {
                assert_eq!(number(&answer), 21, "seed {seed}");
                continue;
            }
            let body = answer.unwrap_or_else(|refusal| panic!("seed {seed}: {refusal}"));
            assert_eq!(body.tail, image.len() as u64, "seed {seed}");
            gives(seed, &fields, &out, &body, &tables);
        }
        count += 1;
    }
    assert!(old_forms > 0);
    compared(count, "bodies written, then read");
}

/// A body that was read as it is lent to a writer: the message read is the
/// text, and the tables are the reader's.
fn draft<'a>(message: &'a [u8], body: &Body, tables: &'a Tables) -> Draft<'a> {
    let part = |place: bafirolen::Place| {
        let part = place.within(message);
        part.expect("a part that was read")
    };
    let pairs = &tables.pairs[..4 * body.pair_count];
    let keys = &tables.keys[..6 * body.key_count];
    Draft::new(body.numbers, part(body.message_id))
        .with_suite_data(part(body.suite_data))
        .with_tables(message, pairs, keys)
}

/// What is written is the image: into an output that just holds it, and into a
/// longer one, whose rest keeps. A byte less is refused by 28. Answers how many
/// writes these are.
fn is_written(seed: u64, draft: Draft, image: &[u8]) -> u64 {
    let length = image.len();
    for room in [length, length + 1 + seed as usize % 9] {
        let before = vec![seed as u8; room];
        let (answer, out) = writes::write_header_body(draft, &before);
        assert_eq!(answer, Ok(length), "seed {seed}");
        assert!(out[..length] == *image, "seed {seed}");
        assert!(out[length..] == before[length..], "seed {seed}");
    }
    let (answer, _) = writes::write_header_body(draft, &vec![seed as u8; length - 1]);
    assert_eq!(number(&answer), 28, "seed {seed}");
    3
}

/// The image with some bytes in front of it, and some behind.
fn around(random: &mut Random, image: &Image) -> (Vec<u8>, u64) {
    let (before, behind) = (random.index(7), random.index(7));
    let mut message = random.bytes(before);
    message.extend_from_slice(&image.bytes);
    message.extend(random.bytes(behind));
    (message, before as u64)
}

/// Bodies of both forms, by every reader of the version: the bytes that were
/// read come back.
#[test]
fn read_then_written() {
    let (mut count, mut old_forms) = (0, 0);
    for seed in seeds(40_000) {
        let random = &mut Random::new(seed);
        let mut fields = fields(random);
        for form in [image::Form::Today, image::Form::Old] {
            // Only an empty context has an old form.
            if form == image::Form::Old && !fields.pairs.is_empty() {
                continue;
            }
            fields.form = form.mark();
            let image = fields.image();
            let (message, start) = around(random, &image);
            let pairs = vec![3; 4 * fields.pairs.len()];
            let keys = vec![5; 6 * fields.keys.len()];
            for request in requests(fields.version) {
                let (answer, tables) =
                    reads::read_header_body(&message, start, request, &pairs, &keys);
                count += 1;
                if form == image::Form::Old && request.mode == Mode::Strict {
                    assert_eq!(number(&answer), 21, "seed {seed}");
                    continue;
                }
                let body = answer.unwrap_or_else(|refusal| panic!("seed {seed}: {refusal}"));
                gives(seed, &fields, &message, &body, &tables);
                count += is_written(seed, draft(&message, &body, &tables), &image.bytes);
                old_forms += u64::from(body.numbers.form == Form::Old);
            }
        }
    }
    assert!(old_forms > 0);
    compared(count, "bodies read, then written");
}

const READERS: [Request; 6] = [
    request(Which::Either, Mode::Tolerant, None),
    request(Which::Either, Mode::Strict, None),
    request(Which::V1Only, Mode::Tolerant, None),
    request(Which::V1Only, Mode::Strict, None),
    request(Which::V2Only, Mode::Tolerant, None),
    request(Which::V2Only, Mode::Strict, None),
];

/// Whatever is accepted, damaged or not, is marked by its context and written
/// again to the bytes that were read.
#[test]
fn accepted_then_written() {
    let (mut count, mut old_forms, mut refused) = (0, 0, 0);
    for seed in seeds(60_000) {
        let BodyCase { message, start, .. } = body_case(seed);
        for asked in READERS {
            let (answer, tables) =
                reads::read_header_body(&message, start, asked, &[3; 256], &[5; 384]);
            count += 1;
            let Ok(body) = answer else { continue };
            let old = message[body.context_start as usize..][..4] == [0, 2, 0, 0];
            assert_eq!(body.numbers.form == Form::Old, old, "seed {seed}");
            assert!(!old || asked.mode == Mode::Tolerant, "seed {seed}");
            old_forms += u64::from(old);
            let image = &message[start as usize..body.tail as usize];
            let draft = draft(&message, &body, &tables);
            if asked.which == Which::Either || frame_fits(&body) {
                count += is_written(seed, draft, image);
                continue;
            }
            let (answer, _) = writes::write_header_body(draft, image);
            assert_eq!(number(&answer), 20, "seed {seed}");
            refused += 1;
            count += 1;
        }
    }
    assert!(old_forms > 0 && refused > 0);
    compared(count, "bodies accepted, then written");
}

/// What the writer tests by 20, and no reader of one version does.
fn frame_fits(body: &Body) -> bool {
    (body.numbers.content_type == FRAMED) == (body.numbers.frame_length > 0)
}
