//! Frames written, by their number and length, and how long they are before:
//! against the separate implementation, and large contents against a copy of
//! the same bytes.

use super::lists::ROTATION;
use crate::answer::agreed;
use crate::measure::Times;
use crate::table::Table;
use crate::{ours, theirs};
use generator::frames::{image, parts, run};
use generator::random::Random;
use generator::tables::places_behind;
use std::hint::black_box;

/// A shape's name, how many frames it has, and their length.
type Shape = (&'static str, usize, usize);

const ONE: Shape = ("1 frame of 64 bytes", 1, 64);
const TEN: Shape = ("10 frames of 64 bytes", 10, 64);
const SOME: Shape = ("100 frames of 4,096 bytes", 100, 4_096);
const MANY: Shape = ("65,535 frames of 64 bytes", 65_535, 64);
const LARGE: Shape = ("1 frame of 1 MiB", 1, 1 << 20);
const LARGER: Shape = ("16 frames of 1 MiB", 16, 1 << 20);

/// A row's requests are made when it is measured, and gone before the next.
pub fn rows(table: &mut Table) {
    for shape in [ONE, TEN, SOME, MANY, LARGE] {
        write(table, shape);
    }
    for shape in [SOME, LARGE, LARGER] {
        copy(table, shape);
    }
    for shape in [TEN, SOME] {
        refile(table, shape);
    }
    for shape in [ONE, TEN, MANY] {
        length(table, shape);
    }
    length_and_write(table, TEN);
}

/// What a writer is lent, and what it writes.
struct Request {
    frame_length: u32,
    text: Vec<u8>,
    table: Vec<u32>,
    image: Vec<u8>,
}

/// The final content is shorter than the others by up to 12 bytes.
fn request(random: &mut Random, (_, count, length): Shape) -> Request {
    let last = length - random.index(13);
    let frames = run(random, length, count - 1, last);
    let parts: Vec<&[u8]> = parts(&frames).collect();
    let (text, table) = places_behind(&parts);
    Request {
        frame_length: length as u32,
        text,
        table,
        image: image(&frames).bytes,
    }
}

/// More of them where they are short, since a branch predictor knows a few.
fn requests(shape: Shape) -> Vec<Request> {
    let mut random = Random::new(15);
    let copies = if shape.1 == 1 && shape.2 < 1_000 {
        128
    } else {
        ROTATION
    };
    (0..copies).map(|_| request(&mut random, shape)).collect()
}

/// Room for the longest of them, twice.
fn outputs(requests: &[Request]) -> [Vec<u8>; 2] {
    let longest = requests.iter().map(|request| request.image.len()).max();
    [(); 2].map(|_| vec![0; longest.unwrap_or(0)])
}

/// An output that two sides filled alike begins with one of the images.
fn filled(requests: &[Request], [ours, theirs]: &[Vec<u8>; 2]) {
    assert!(ours == theirs);
    let mut requests = requests.iter();
    assert!(requests.any(|request| ours.starts_with(&request.image)));
}

/// Two sides that write the same requests, each into an output of its own.
fn written(
    shape: Shape,
    one: impl Fn(&Request, &mut [u8]) -> u64,
    other: impl Fn(&Request, &mut [u8]) -> u64,
) -> Times {
    let requests = requests(shape);
    let request = |call: usize| &black_box(&requests[..])[call % requests.len()];
    let mut outs = outputs(&requests);
    let [out, other_out] = &mut outs;
    let times = agreed(
        requests.len(),
        None,
        |call| one(request(call), black_box(&mut *out)),
        |call| other(request(call), black_box(&mut *other_out)),
    );
    filled(&requests, &outs);
    times
}

fn write(table: &mut Table, shape: Shape) {
    let times = written(
        shape,
        |asked, out| ours::write_frames(asked.frame_length, &asked.text, &asked.table, out),
        |asked, out| theirs::write_frames(asked.frame_length, &asked.text, &asked.table, out),
    );
    table.row(&format!("frames written, {}", shape.0), "reference", times);
}

/// The other side has the image already, and copies it.
fn copy(table: &mut Table, shape: Shape) {
    let requests = requests(shape);
    let request = |call: usize| &black_box(&requests[..])[call % requests.len()];
    let mut outs = outputs(&requests);
    let [our_out, their_out] = &mut outs;
    let times = agreed(
        requests.len(),
        None,
        |call| {
            let asked = request(call);
            let out = black_box(&mut *our_out);
            ours::write_frames(asked.frame_length, &asked.text, &asked.table, out)
        },
        |call| {
            let image = &request(call).image;
            black_box(&mut *their_out)[..image.len()].copy_from_slice(image);
            image.len() as u64
        },
    );
    filled(&requests, &outs);
    table.row(
        &format!("frames written, {}", shape.0),
        "copy_from_slice",
        times,
    );
}

/// Reads the frames of an image and writes them again.
fn refile(table: &mut Table, shape: Shape) {
    let requests = requests(shape);
    let request = |call: usize| &black_box(&requests[..])[call % requests.len()];
    let mut outs = outputs(&requests);
    let [our_out, their_out] = &mut outs;
    let [mut our_table, mut their_table] = [(); 2].map(|_| vec![0; 6 * shape.1]);
    let length = shape.2 as u32;
    let times = agreed(
        requests.len(),
        None,
        |call| {
            let (table, out) = black_box((&mut our_table, &mut *our_out));
            ours::refile_frames(&request(call).image, length, table, out)
        },
        |call| {
            let (table, out) = black_box((&mut their_table, &mut *their_out));
            theirs::refile_frames(&request(call).image, length, table, out)
        },
    );
    filled(&requests, &outs);
    assert!(our_table == their_table);
    table.row(&format!("frames refiled, {}", shape.0), "reference", times);
}

fn length(table: &mut Table, shape: Shape) {
    let requests = requests(shape);
    let request = |call: usize| &black_box(&requests[..])[call % requests.len()];
    let times = agreed(
        requests.len(),
        None,
        |call| {
            let asked = request(call);
            ours::frames_len(asked.frame_length, &asked.text, &asked.table)
        },
        |call| {
            let asked = request(call);
            theirs::frames_len(asked.frame_length, &asked.text, &asked.table)
        },
    );
    table.row(&format!("frames length, {}", shape.0), "reference", times);
}

/// Both sides are ours. The output of the one is just as long as the frames.
fn length_and_write(table: &mut Table, shape: Shape) {
    let times = written(
        shape,
        |asked, out| {
            ours::measure_and_write_frames(asked.frame_length, &asked.text, &asked.table, out)
        },
        |asked, out| ours::write_frames(asked.frame_length, &asked.text, &asked.table, out),
    );
    table.row(
        &format!("frames length and write, {}", shape.0),
        "ours, write alone",
        times,
    );
}
