//! Pairs that are only authenticated, one row each; and in numbers that the
//! rows don't reach.

mod common;

use common::{codec::Reference, report, report_rows};
use generator::image::{only_authenticated, section, Form};
use generator::many::{pairs, MOST, ORDERS};
use generator::random::Random;
use generator::rows::only_authenticated as rows;
use generator::tables::lend_parts;
use reference::write_only_authenticated;

#[test]
fn one_section() {
    report_rows("one section", rows::one_section(&Reference), 36);
}

#[test]
fn empty_contexts_and_parts() {
    let rows = rows::empty_contexts_and_parts(&Reference);
    report_rows("empty contexts and parts", rows, 9);
}

#[test]
fn the_section_is_refused_first() {
    let rows = rows::the_section_is_refused_first(&Reference);
    report_rows("the section is refused first", rows, 20 * 5 * 2);
}

#[test]
fn the_longest_image() {
    let rows = rows::the_longest_image(&Reference);
    report_rows("the longest image", rows, 5);
}

#[test]
fn the_message_as_the_text() {
    let rows = rows::the_message_as_the_text(&Reference);
    report_rows("the message as the text", rows, 7);
}

/// As many pairs as a section takes, of which all, a third or one is required.
#[test]
fn many_pairs() {
    let mut random = Random::new(5);
    let mut compared = 0;
    for order in ORDERS {
        let pairs = pairs(&mut random, MOST, (2, 0), order);
        let message = section(&pairs, Form::Today).bytes;
        for step in [1, 3, MOST] {
            let mut keys: Vec<&[u8]> = pairs.iter().step_by(step).map(|pair| &pair.0[..]).collect();
            random.shuffle(&mut keys);
            let image = only_authenticated(&pairs, keys.iter().copied());
            let (text, required) = lend_parts(&mut random, &keys);
            let mut out = vec![0; image.len()];
            let length = write_only_authenticated(&message, 0, &text, &required, &mut out);
            assert_eq!(length, Ok(image.len() as u64));
            assert!(out == image, "{order:?}, one in {step}");
            compared += 1;
        }
    }
    report("many pairs only authenticated", compared);
}
