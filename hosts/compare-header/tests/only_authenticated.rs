//! Pairs that are only authenticated: small sections in every arrangement,
//! cut, changed and into outputs of every length.

use compare_header::answers::Answers;
use compare_header::every::{required, section_of};
use compare_header::numbers::{number, Answer};
use compare_header::{compared, reads, writes};
use generator::arrangements::orders;
use generator::image::only_authenticated;
use generator::large::agreeing;
use generator::random::Random;
use generator::tables::lend_parts;
use generator::Pair;

/// Keys of which some begin others, and one that isn't ASCII.
const KEYS: [&str; 5] = ["", "a", "ab", "b", "\u{e9}"];

/// The pairs of these keys, each value its number.
fn pairs_of(order: &[usize]) -> Vec<Pair> {
    let pair = |&at: &usize| (KEYS[at].as_bytes().to_vec(), vec![b'0' + at as u8]);
    order.iter().map(pair).collect()
}

/// Five pairs in every order, and all that can be required of them: the image
/// goes by the keys alone.
#[test]
fn every_order_and_every_choice() {
    let mut random = Random::new(181);
    let mut answers = Answers::default();
    let orders = orders(KEYS.len());
    assert_eq!(orders.len(), 120);
    for order in &orders {
        let pairs = pairs_of(order);
        for choice in 0..1u32 << KEYS.len() {
            let mut keys: Vec<&[u8]> = (0..KEYS.len())
                .filter(|at| choice >> at & 1 == 1)
                .map(|at| KEYS[at].as_bytes())
                .collect();
            random.shuffle(&mut keys);
            answers.met(&required(&mut random, &pairs, &keys), 0);
        }
    }
    let wanted = [(0, 120 * 32)];
    answers.assert_are("choices of five pairs in every order", &wanted);
}

/// The sample section with bytes around it, at 3, and a text whose places it
/// takes: the keys in another order, one of them again, and two absent ones.
fn sample() -> (Vec<u8>, Vec<u8>, Vec<u32>) {
    let mut message = vec![0x55; 3];
    message.extend(section_of(&pairs_of(&[3, 2, 4, 0, 1])).bytes);
    message.extend([0x01; 3]);
    let text = "\u{e9}aba\u{ff}".as_bytes().to_vec();
    let required = vec![2, 2, 0, 2, 3, 1, 2, 1, 4, 1, 5, 2, 7, 0, 2, 3];
    (message, text, required)
}

/// What is read, with the answer of the tolerant reader: the refusals are the
/// same but for its table.
fn as_read(message: &[u8], start: u64, answer: &Answer<usize>) {
    let table = vec![7; 4 * message.len()];
    let (read, _) = reads::read_aad_section(message, start, bafirolen::Mode::Tolerant, &table);
    assert_eq!(number(answer), number(&read));
}

/// Cut at every offset, read from every start.
#[test]
fn every_cut() {
    let (message, text, required) = sample();
    let mut count = 0;
    for end in 0..=message.len() {
        for start in 0..=message.len() as u64 + 1 {
            let cut = &message[..end];
            let (answer, _) =
                writes::write_only_authenticated(cut, start, &text, &required, &[0x11; 60]);
            as_read(cut, start, &answer);
            count += 1;
        }
    }
    compared(count, "cuts of what is only authenticated");
}

/// Every byte of the section replaced by every other, with room and without.
#[test]
fn every_byte() {
    let (mut message, text, required) = sample();
    let mut count = 0;
    for at in 3..message.len() - 3 {
        let right = message[at];
        for byte in 0..=0xFF {
            message[at] = byte;
            let write = |room: usize| {
                let out = vec![0x11; room];
                writes::write_only_authenticated(&message, 3, &text, &required, &out).0
            };
            as_read(&message, 3, &write(60));
            let _ = write(20);
            count += 2;
        }
        message[at] = right;
    }
    compared(count, "sections with one byte replaced, only authenticated");
}

/// Outputs of every length: the image, or nothing.
#[test]
fn every_room() {
    let (message, text, required) = sample();
    let image = only_authenticated(&pairs_of(&[0, 1, 2, 3, 4]), KEYS.map(str::as_bytes));
    let mut answers = Answers::default();
    for room in 0..=image.len() + 20 {
        let out = vec![0x11; room];
        let (answer, out) = writes::write_only_authenticated(&message, 3, &text, &required, &out);
        match room < image.len() {
            true => answers.met(&answer, 28),
            false => {
                answers.met(&answer, 0);
                assert!(out.starts_with(&image), "{room}");
            }
        }
    }
    let short = image.len() as u64;
    answers.assert_are("outputs of every length", &[(0, 21), (28, short)]);
}

/// Required tables cut to every length: the odd ones are refused.
#[test]
fn every_table_length() {
    let (message, text, required) = sample();
    let mut answers = Answers::default();
    for length in 0..=required.len() {
        let table = &required[..length];
        let (answer, _) = writes::write_only_authenticated(&message, 3, &text, table, &[0x11; 60]);
        answers.met(&answer, if length % 2 == 1 { 31 } else { 0 });
    }
    answers.assert_are("required tables of every length", &[(0, 9), (31, 8)]);
}

/// Every place of a text of a few bytes, and those around its end.
#[test]
fn every_place() {
    let (message, text, _) = sample();
    let end = text.len() as u32;
    let mut answers = Answers::default();
    let (mut inside, mut outside) = (0, 0);
    for start in (0..=end + 2).chain([u32::MAX - 1, u32::MAX]) {
        for length in (0..=end + 2).chain([u32::MAX - 1, u32::MAX]) {
            let out = [0x11; 60];
            let (answer, _) =
                writes::write_only_authenticated(&message, 3, &text, &[start, length], &out);
            let wanted = u64::from(start) + u64::from(length) <= u64::from(end);
            answers.met(&answer, if wanted { 0 } else { 31 });
            *if wanted { &mut inside } else { &mut outside } += 1;
        }
    }
    answers.assert_are(
        "required places around a text",
        &[(0, inside), (31, outside)],
    );
}

/// Keys that agree in a front, half of them required; and in their place ones
/// that differ in the last byte, that begin them, or that they begin.
#[test]
fn of_agreeing_keys() {
    let mut random = Random::new(184);
    let mut answers = Answers::default();
    let mut requests = 0;
    for front in [0, 1, 7, 8, 9, 63, 64, 65, 200, 255, 256, 1_000, 3_000] {
        for count in [2, 5, 20] {
            let mut pairs = agreeing(front, 2, count);
            random.shuffle(&mut pairs);
            let half: Vec<&[u8]> = pairs[..count / 2].iter().map(|pair| &pair.0[..]).collect();
            answers.met(&required(&mut random, &pairs, &half), 0);
            let absent: Vec<Vec<u8>> = half
                .iter()
                .flat_map(|key| {
                    let last = key.len() - 1;
                    let other = [&key[..last], b"x"].concat();
                    [other, key[..last].to_vec(), [key, &b"0"[..]].concat()]
                })
                .collect();
            let absent: Vec<&[u8]> = absent.iter().map(|key| &key[..]).collect();
            let (text, table) = lend_parts(&mut random, &absent);
            let section = section_of(&pairs).bytes;
            let (answer, _) = writes::write_only_authenticated(&section, 0, &text, &table, &[]);
            assert_eq!(answer, Ok(0), "{front} {count}");
            answers.met(&answer, 0);
            requests += 2;
        }
    }
    assert_eq!(requests, 13 * 3 * 2);
    answers.assert_are("agreeing keys only authenticated", &[(0, requests)]);
}
