//! Headers and frames at starts of every size, with all of their bytes there,
//! with some, and with none.

use bafirolen::Mode;
use compare_header::answers::Answers;
use compare_header::every::{parts_of_keys, parts_of_pairs};
use compare_header::expected::parts_are;
use compare_header::{reads, requests, writes};
use generator::fields::Fields;
use generator::frames;
use generator::image::{keys, section, Form, Image};
use generator::large::{agreeing, plain, zeros};
use generator::random::Random;

const GREATEST: usize = u32::MAX as usize;

/// Fields of a version with two pairs and two keys.
fn sample(version: u32) -> Fields {
    let mut fields = plain(version);
    fields.pairs = agreeing(2, 1, 2);
    fields.keys = vec![[b"p".to_vec(), Vec::new(), vec![0xAA, 0xBB]]; 2];
    fields
}

/// Where the sections begin in the image.
fn sections_at(fields: &Fields) -> (u64, u64) {
    let context = if fields.version == 1 { 20 } else { 35 };
    let length = section(&fields.pairs, Form::Today).bytes.len() as u64;
    (context, context + length)
}

/// What a read of an image is answered, by where the message ends.
fn outcome(image: &Image, start: u64, message: &[u8]) -> (u32, u64) {
    if start > GREATEST as u64 {
        return (1, 0);
    }
    let wanted = image.wanted(start, message.len() as u64);
    wanted.map_or((0, 0), |position| (2, position))
}

/// How many answers `read_all` counts.
const BODIES: u64 = 5;
const CONTEXTS: u64 = 4;
const KEYS: u64 = 1;

/// Every reader of the header at the start and of its sections.
fn read_all(answers: &mut Answers, message: &[u8], start: u64, fields: &Fields) {
    let image = fields.image();
    let (number, position) = outcome(&image, start, message);
    for request in requests(fields.version) {
        let (answer, tables) = reads::read_header_body(message, start, request, &[7; 8], &[7; 12]);
        answers.expected(&answer, number, position);
        if number == 0 {
            parts_are(start, message, &tables.pairs, parts_of_pairs(&fields.pairs));
            parts_are(start, message, &tables.keys, parts_of_keys(&fields.keys));
        }
    }
    let end = start + image.bytes.len() as u64;
    let told = if number == 0 { end } else { position };
    assert_eq!(reads::host_answer(message, start), (number, told));
    answers.told(number);

    let (context_at, keys_at) = sections_at(fields);
    let at = start + context_at;
    let (number, position) = outcome(&section(&fields.pairs, Form::Today), at, message);
    for mode in [Mode::Tolerant, Mode::Strict] {
        let (answer, _) = reads::read_aad_section(message, at, mode, &[7; 8]);
        answers.expected(&answer, number, position);
    }
    let answer = reads::find_value(message, at, &fields.pairs[1].0);
    answers.expected(&answer, number, position);
    let text = [&fields.pairs[1].0[..], &fields.pairs[0].0].concat();
    let (answer, _) = writes::write_only_authenticated(message, at, &text, &[0, 3, 3, 3], &[7; 20]);
    answers.expected(&answer, number, position);

    let at = start + keys_at;
    let (number, position) = outcome(&keys(&fields.keys), at, message);
    let (answer, _) = reads::read_encrypted_data_keys_section(message, at, Some(2), &[7; 12]);
    answers.expected(&answer, number, position);
}

/// Puts bytes at a place of memory that is all 0, for as long as `then` runs.
fn with_bytes(memory: &mut [u8], at: usize, bytes: &[u8], then: impl FnOnce(&[u8])) {
    let end = memory.len().min(at + bytes.len());
    memory[at..end].copy_from_slice(&bytes[..end - at]);
    then(memory);
    memory[at..end].fill(0);
}

/// Starts from 41 on: each up to 300, around powers of two, and anywhere.
fn starts() -> Vec<usize> {
    let mut starts: Vec<usize> = (41..=300).collect();
    for power in 9..32 {
        let middle = 1usize << power;
        starts.extend([middle - 1, middle, middle + 1]);
    }
    let mut random = Random::new(171);
    let most = GREATEST as u64 - 200;
    starts.push(1_000);
    starts.extend((0..30).map(|_| random.between(301, most) as usize));
    starts
}

/// The message whole, with bytes behind it, cut at every offset, and ending
/// before the start.
#[test]
fn up_to_four_gibibytes() {
    let mut memory = zeros(GREATEST);
    let mut answers = Answers::default();
    let (mut accepted, mut short) = (0, 0);
    for fields in [sample(1), sample(2)] {
        let bytes = fields.image().bytes;
        let (_, keys_at) = sections_at(&fields);
        let keys_end = keys_at + keys(&fields.keys).bytes.len() as u64;
        let length = bytes.len() as u64;
        for start in starts() {
            with_bytes(&mut memory, start, &bytes, |memory| {
                let whole = start + bytes.len();
                let before = [0, 1, start / 2, start - 1];
                for end in (start..=whole + 3).chain(before) {
                    read_all(&mut answers, &memory[..end], start as u64, &fields);
                }
            });
            // A reader accepts from its end on: of length + 8 messages.
            let ends = [(BODIES, length), (CONTEXTS, keys_at), (KEYS, keys_end)];
            for (readers, end) in ends {
                accepted += readers * (length + 4 - end);
                short += readers * (end + 4);
            }
        }
    }
    let wanted = [(0, accepted), (2, short)];
    answers.assert_are("reads at starts up to 4 GiB", &wanted);
}

/// So close to the greatest length that only a part of the header is there,
/// and its sections may begin behind the greatest start.
#[test]
fn at_the_greatest_length() {
    let mut memory = zeros(GREATEST);
    let mut answers = Answers::default();
    let (mut accepted, mut too_large, mut all) = (0, 0, 0);
    for fields in [sample(1), sample(2)] {
        let bytes = fields.image().bytes;
        for there in 0..bytes.len() {
            let start = GREATEST - there;
            with_bytes(&mut memory, start, &bytes, |memory| {
                read_all(&mut answers, memory, start as u64, &fields);
                read_all(&mut answers, &memory[..40], start as u64, &fields);
            });
        }
        let length = bytes.len() as u64;
        let (context_at, keys_at) = sections_at(&fields);
        let keys_end = keys_at + keys(&fields.keys).bytes.len() as u64;
        accepted += CONTEXTS * (length - keys_at) + KEYS * (length - keys_end);
        too_large += 2 * (CONTEXTS * context_at + KEYS * keys_at);
        all += 2 * length * (BODIES + CONTEXTS + KEYS);
    }
    let short = all - accepted - too_large;
    let wanted = [(0, accepted), (1, too_large), (2, short)];
    answers.assert_are("reads at the last starts", &wanted);
}

/// Authentication records, of 28 bytes and of 16.
#[test]
fn authentication_records() {
    let mut memory = zeros(GREATEST);
    let mut answers = Answers::default();
    let record: Vec<u8> = (1..=28).collect();
    let starts = starts();
    for &start in &starts {
        with_bytes(&mut memory, start, &record, |memory| {
            for there in 0..=28 {
                let message = &memory[..start + there];
                let at = start as u64;
                let first = reads::read_header_auth_tag(message, at, 0x0178);
                let second = reads::read_header_auth_tag(message, at, 0x0578);
                match there {
                    28 => answers.met(&first, 0),
                    12..28 => answers.short(&first, at + 28),
                    _ => answers.short(&first, at + 12),
                }
                match there {
                    16.. => answers.met(&second, 0),
                    _ => answers.short(&second, at + 16),
                }
            }
        });
    }
    let starts = starts.len() as u64;
    let wanted = [(0, 14 * starts), (2, 44 * starts)];
    answers.assert_are("records at starts up to 4 GiB", &wanted);
}

/// Frames of 3 bytes: 35 bytes, 35 and 42. The message whole, with bytes
/// behind it, cut at every offset, and ending before the start; and so close
/// to the greatest length that only a part of the frames is there.
#[test]
fn runs_of_frames() {
    let mut memory = zeros(GREATEST);
    let mut answers = Answers::default();
    let three = frames::run(&mut Random::new(173), 3, 2, 2);
    let image = frames::image(&three);
    let bytes = &image.bytes;
    let mut read = |message: &[u8], start: usize| {
        let start = start as u64;
        let (number, position) = outcome(&image, start, message);
        let (answer, table) = reads::read_frames(message, start, 3, &[7; 18]);
        answers.expected(&answer, number, position);
        if number == 0 {
            parts_are(start, message, &table, frames::parts(&three));
        }
    };
    for start in starts() {
        with_bytes(&mut memory, start, bytes, |memory| {
            let before = [0, 1, start / 2, start - 1];
            for end in (start..=start + bytes.len() + 3).chain(before) {
                read(&memory[..end], start);
            }
        });
    }
    for there in 0..=bytes.len() {
        let start = GREATEST - there;
        with_bytes(&mut memory, start, bytes, |memory| read(memory, start));
    }
    read(&memory, GREATEST + 1);
    let (length, starts) = (bytes.len() as u64, starts().len() as u64);
    assert_eq!(length, 112);
    let wanted = [
        (0, 4 * starts + 1),
        (1, 1),
        (2, (length + 4) * starts + length),
    ];
    answers.assert_are("frames at starts up to 4 GiB", &wanted);
}
