//! A draft that was reissued reads as its own fields with what was added, and is
//! what the body writer writes of these.

use super::read;
use bafirolen::{Draft, Numbers};
use compare_header::every::write_body;
use compare_header::expected::reads_as;
use compare_header::numbers::number;
use compare_header::reissues::{reissue, SOUND};
use compare_header::scale::seeds;
use compare_header::{compared, requests, writes};
use generator::drafts::{behind, sound_fields};
use generator::fields::{suite_of, Fields};
use generator::random::Random;
use generator::reissue_cases::reissue_case;
use generator::rows::Added;
use generator::tables::lend;

/// Fields of a sound draft of version 1.
fn first(random: &mut Random) -> Fields {
    loop {
        let fields = sound_fields(random);
        if fields.version == 1 {
            return fields;
        }
    }
}

/// Strict readers read it too: an empty context has today's form. Reissued once
/// more it is refused by 4.
#[test]
fn reissued_then_read() {
    let (mut count, mut old_forms) = (0, 0);
    for seed in seeds(30_000) {
        let random = &mut Random::new(seed ^ 0x4E15);
        let (draft, suite) = (first(random), suite_of(random, 2));
        let (id, suite_data) = (random.bytes(32), random.bytes(32));
        let added = Added {
            suite,
            id: &id,
            suite_data: &suite_data,
        };
        let (before, rest) = (random.length(20), random.length(40));
        let mut message = random.bytes(before);
        message.extend(draft.image().bytes);
        message.extend(behind(random, rest));
        let fields = draft.reissued(added);
        let image = fields.image().bytes;
        let out = random.bytes(image.len() + rest);
        let (answer, body) = reissue(&message, before as u64, added, &out);
        assert_eq!(answer, Ok(image.len()), "seed {seed}");
        assert!(body.starts_with(&image), "seed {seed}");
        assert!(body[image.len()..] == out[image.len()..], "seed {seed}");
        for request in requests(2) {
            reads_as(seed, &body, request, &fields, image.len());
            count += 1;
        }

        let lent = lend(random, &fields.pairs, &fields.keys);
        let (answer, written) = write_body(&fields, &lent, &out);
        assert_eq!(answer, Ok(image.len()), "seed {seed}");
        assert!(written == body, "seed {seed}: what the body writer writes");
        let (answer, _) = reissue(&body, 0, SOUND, &out);
        assert_eq!(number(&answer), 4, "seed {seed}");
        count += 3;
        old_forms += u64::from(draft.form);
    }
    assert!(old_forms > count / 100, "{old_forms} of {count}");
    compared(count, "drafts reissued, then read");
}

/// Whatever is accepted, damaged or not, is what a host comes to that reads it
/// and then writes what it read, with the same message as the text.
#[test]
fn as_read_and_written() {
    let (mut count, mut accepted) = (0, 0);
    for seed in seeds(60_000) {
        let case = reissue_case(seed ^ 0x4EAD_0000);
        let (message, start, added) = (&case.message, case.start, case.added());
        let (answer, out) = reissue(message, start, added, &case.out);
        count += 1;
        if answer.is_err() {
            continue;
        }
        let (body, tables) = read(message, start);
        let body = body.unwrap_or_else(|refusal| panic!("seed {seed}: {refusal}"));
        let (content_type, frame_length) = (body.numbers.content_type, body.numbers.frame_length);
        let stored = Numbers::version_2(added.suite, content_type, frame_length);
        let draft = Draft::new(stored, added.id)
            .with_suite_data(added.suite_data)
            .with_tables(
                message,
                &tables.pairs[..4 * body.pair_count],
                &tables.keys[..6 * body.key_count],
            );
        let written = writes::write_header_body(draft, &case.out);
        assert!(written == (answer, out), "seed {seed}");
        count += 1;
        accepted += 1;
    }
    assert!(accepted > count / 8, "{accepted} of {count}");
    compared(count, "drafts reissued, or read and written");
}
