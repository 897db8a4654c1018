//! Requests to read or write an authentication record.

use crate::body_cases::unknown_suite;
use crate::body_write_cases::wrong_length;
use crate::fields::{SUITES_V1, SUITES_V2};
use crate::image::Image;
use crate::random::Random;
use crate::surroundings::{cut, start_past, start_too_large, whole};
use crate::write_cases::output;
use crate::Expected;

/// A request to read. Accepted, it gives `iv`, `tag` and the tail `end`.
#[derive(Clone, Debug)]
pub struct AuthCase {
    pub message: Vec<u8>,
    pub start: u64,
    pub suite: u32,
    pub iv: [u8; 12],
    pub tag: [u8; 16],
    pub end: u64,
    pub expected: Expected,
}

/// A request to write. Accepted, it puts `image` at the output's front.
#[derive(Clone, Debug)]
pub struct AuthWriteCase {
    pub suite: u32,
    pub iv: Vec<u8>,
    pub tag: Vec<u8>,
    pub out: Vec<u8>,
    pub image: Vec<u8>,
    pub expected: Expected,
}

fn suite(random: &mut Random) -> (u32, u32) {
    if random.one_in(2) {
        (u32::from(random.pick(&SUITES_V1)), 1)
    } else {
        (u32::from(random.pick(&SUITES_V2)), 2)
    }
}

/// No suite of the table. Some agree with one in their low 16 bits.
fn wrong_suite(random: &mut Random, suite: u32) -> u32 {
    if random.one_in(4) {
        suite | 0x1_0000 << random.below(16)
    } else {
        unknown_suite(random)
    }
}

/// The request of a seed to read a record.
pub fn auth_case(seed: u64) -> AuthCase {
    let mut random = Random::new(seed);
    let random = &mut random;
    let (mut suite, version) = suite(random);
    let mut iv = [0; 12];
    let mut tag = [0; 16];
    tag.copy_from_slice(&random.bytes(16));
    let mut image = Image::default();
    if version == 1 {
        iv.copy_from_slice(&random.bytes(12));
        image.part(&iv);
    }
    image.part(&tag);
    let placed = match random.below(8) {
        0..=2 => cut(random, &image),
        3 => start_past(random, &image, if version == 1 { 12 } else { 16 }),
        4 => start_too_large(random, &image),
        _ => whole(random, &image, 0),
    };
    let unknown = random.one_in(6);
    if unknown {
        suite = wrong_suite(random, suite);
    }
    let expected = match placed.fault {
        Some((1, _)) => Expected::Refused(1, 0),
        _ if unknown => Expected::Refused(6, 0),
        Some((number, position)) => Expected::Refused(number, position),
        None => Expected::Accepted,
    };
    AuthCase {
        message: placed.message,
        start: placed.start,
        suite,
        iv,
        tag,
        end: placed.end,
        expected,
    }
}

/// The request of a seed to write a record.
pub fn auth_write_case(seed: u64) -> AuthWriteCase {
    let mut random = Random::new(seed);
    let random = &mut random;
    let (mut suite, version) = suite(random);
    let (mut iv, mut tag) = (random.bytes(12), random.bytes(16));
    let mut image = if version == 1 { iv.clone() } else { Vec::new() };
    image.extend_from_slice(&tag);
    let (out, fits) = output(random, image.len());
    let mut number = if fits { 0 } else { 28 };
    if random.one_in(5) {
        tag = wrong_length(random, &[16]);
        number = 30;
    }
    if random.one_in(5) {
        iv = wrong_length(random, &[12]);
        number = 19;
    }
    if random.one_in(5) {
        suite = wrong_suite(random, suite);
        number = 6;
    }
    let expected = if number == 0 {
        Expected::Accepted
    } else {
        Expected::Refused(number, 0)
    };
    AuthWriteCase {
        suite,
        iv,
        tag,
        out,
        image,
        expected,
    }
}
