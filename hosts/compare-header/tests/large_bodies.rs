//! Bodies of up to as many pairs and keys as a header holds, read and written.

use compare_header::answers::Answers;
use compare_header::every::{self, write_body, USES_OF_KEYS, USES_OF_PAIRS};
use compare_header::{reads, requests};
use generator::fields::Fields;
use generator::large::plain;
use generator::many::{pairs, MOST, ORDERS};
use generator::random::Random;
use generator::tables::lend;
use generator::Key;

const PAIRS: [usize; 17] = [
    33, 60, 61, 64, 65, 100, 256, 512, 513, 1_023, 1_024, 1_025, 1_100, 1_101, 2_000, 5_000, MOST,
];

const KEYS: [usize; 14] = [
    13, 60, 61, 255, 256, 682, 683, 700, 701, 1_025, 5_000, 10_923, 65_534, 65_535,
];

/// In every order; then with a key repeated, the first and the last.
#[test]
fn many_pairs() {
    let mut random = Random::new(151);
    let mut answers = Answers::default();
    for count in PAIRS {
        for order in ORDERS {
            let mut pairs = pairs(&mut random, count, (2, 0), order);
            every::pairs(&mut random, &mut answers, &pairs, 0);
            for again in [0, count / 2, count - 1] {
                pairs.push((pairs[again].0.clone(), Vec::new()));
                every::pairs(&mut random, &mut answers, &pairs, 12);
                pairs.pop();
            }
        }
    }
    let contexts = (PAIRS.len() * ORDERS.len()) as u64;
    let wanted = [
        (0, USES_OF_PAIRS * contexts),
        (12, 3 * USES_OF_PAIRS * contexts),
    ];
    answers.assert_are("bodies and sections of up to 10,900 pairs", &wanted);
}

/// Keys that can be told apart, of which some parts are empty.
fn keys(count: usize) -> Vec<Key> {
    let key = |i: usize| {
        let digits = format!("{i}").into_bytes();
        match i % 4 {
            0 => [digits, Vec::new(), Vec::new()],
            1 => [Vec::new(), vec![0xFF; i % 7], digits],
            2 => [Vec::new(), digits, vec![0xFE; i % 5]],
            _ => Key::default(),
        }
    };
    (0..count).map(key).collect()
}

/// Then with a provider ID that isn't UTF-8, of the first key and of the last.
#[test]
fn many_keys() {
    let mut random = Random::new(152);
    let mut answers = Answers::default();
    for count in KEYS {
        let mut keys = keys(count);
        every::keys(&mut random, &mut answers, &keys, 0);
        for at in [0, count - 1] {
            let right = std::mem::replace(&mut keys[at][0], vec![0xFF]);
            every::keys(&mut random, &mut answers, &keys, 16);
            keys[at][0] = right;
        }
    }
    let lists = KEYS.len() as u64;
    let wanted = [(0, USES_OF_KEYS * lists), (16, 2 * USES_OF_KEYS * lists)];
    answers.assert_are("bodies and sections of up to 65,535 keys", &wanted);
}

/// Reads with tables that fit, that are one number short, and longer; the
/// maximum just as great, and one less.
fn read_by_table(answers: &mut Answers, fields: &Fields, image: &[u8]) {
    let (pairs, keys) = (4 * fields.pairs.len(), 6 * fields.keys.len());
    let tables = [
        (pairs, keys, 0, 0),
        (pairs + 9, keys + 9, 0, 0),
        (pairs - 1, keys, 0, 22),
        (pairs, keys - 1, 0, 23),
        (pairs, keys, 1, 15),
    ];
    for (pairs, keys, fewer, wanted) in tables {
        let (pairs, keys) = (vec![3; pairs], vec![5; keys]);
        for mut request in requests(fields.version) {
            request.max = Some((fields.keys.len() - fewer) as u64);
            let (answer, _) = reads::read_header_body(image, 0, request, &pairs, &keys);
            answers.met(&answer, wanted);
        }
    }
}

/// Pairs and keys together, written into an output that the image fills and
/// into one that is a byte short, and read.
#[test]
fn both_and_tables() {
    let mut random = Random::new(153);
    let mut answers = Answers::default();
    let sizes = [(61, 13), (1_101, 701), (1_025, 683), (MOST, 65_535)];
    for (version, (pair_count, key_count)) in [1, 2]
        .into_iter()
        .flat_map(|version| sizes.map(|size| (version, size)))
    {
        let mut fields = plain(version);
        fields.pairs = pairs(&mut random, pair_count, (2, 0), ORDERS[2]);
        fields.keys = keys(key_count);
        let image = fields.image().bytes;
        let lent = lend(&mut random, &fields.pairs, &fields.keys);
        for (room, wanted) in [(image.len(), 0), (image.len() - 1, 28)] {
            let (answer, out) = write_body(&fields, &lent, &vec![0x11; room]);
            answers.met(&answer, wanted);
            assert!(wanted != 0 || out == image, "the image");
        }
        read_by_table(&mut answers, &fields, &image);
    }
    let bodies = 2 * sizes.len() as u64;
    let wanted = [(0, 9), (15, 4), (22, 4), (23, 4), (28, 1)];
    let wanted = wanted.map(|(number, each)| (number, each * bodies));
    answers.assert_are("large bodies by table and maximum", &wanted);
}

/// What a host is told goes by tables of 4,096 numbers: 1,024 pairs, 682 keys.
#[test]
fn hosts() {
    let mut random = Random::new(154);
    let mut answers = Answers::default();
    for (pair_count, key_count, wanted) in [
        (1_024, 682, 0),
        (1_025, 682, 22),
        (1_024, 683, 23),
        (1_101, 701, 22),
        (0, 65_535, 23),
        (MOST, 1, 22),
        (MOST, 0, 38),
    ] {
        for version in [1, 2] {
            let mut fields = plain(version);
            fields.pairs = pairs(&mut random, pair_count, (2, 0), ORDERS[0]);
            fields.keys = keys(key_count);
            let image = fields.image().bytes;
            let tail = if wanted == 0 { image.len() as u64 } else { 0 };
            assert_eq!(reads::host_answer(&image, 0), (wanted, tail));
            answers.told(wanted);
        }
    }
    let wanted = [(0, 2), (22, 6), (23, 4), (38, 2)];
    answers.assert_are("large bodies told to a host", &wanted);
}
