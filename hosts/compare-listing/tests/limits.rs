//! Messages at and beyond what the program's tables and its input hold.

use compare_listing::{compared, listed, program, refused};
use generator::fields::{fields, Fields};
use generator::random::Random;

/// Fields of version 1 with that many pairs and keys, none longer than it
/// has to be: keys of two letters, empty values, empty entries; in today's form.
fn small(pairs: usize, keys: usize) -> Fields {
    let mut fields = (0..)
        .map(|seed| fields(&mut Random::new(seed)))
        .find(|fields| fields.version == 1)
        .expect("one in two is of version 1");
    let letter = |n: usize| b'0' + n as u8;
    fields.pairs = (0..pairs)
        .map(|i| (vec![letter(i / 64), letter(i % 64)], Vec::new()))
        .collect();
    fields.keys = vec![Default::default(); keys];
    fields.form = 0;
    fields
}

/// Tables of 4,096 numbers hold 1,024 pairs and 682 keys.
#[test]
fn more_pairs_and_keys_than_the_tables_hold() {
    for (pairs, keys, number) in [(1_025, 1, 22), (1, 683, 23), (1_025, 683, 22)] {
        let message = small(pairs, keys).image().bytes;
        let what = format!("{pairs} pairs and {keys} keys");
        listed(&what, &message, &refused(number, 0));
    }
    let fields = small(1_024, 682);
    let message = fields.image().bytes;
    let text = reference::listing(&message);
    listed("full tables", &message, &text);
    let lines = |word: &[u8]| {
        let lines = text.split(|byte| *byte == b'\n');
        lines.filter(|line| line.starts_with(word)).count()
    };
    assert_eq!((lines(b"pair\t"), lines(b"key\t")), (1_024, 682));
    compared(4, "listings at and beyond full tables");
}

/// A message with one key whose ciphertext fills it up to a length, and its
/// listing's last line.
fn long(length: usize) -> (Vec<u8>, String) {
    let mut fields = small(0, 1);
    let rest = length - fields.image().bytes.len();
    fields.keys[0][2] = vec![0x5A; rest];
    (
        fields.image().bytes,
        format!("key\t\t\t{}\n", "5a".repeat(rest)),
    )
}

#[test]
fn an_input_as_long_as_the_buffer_and_longer() {
    let (whole, last) = long(65_536);
    let text = reference::listing(&whole);
    assert!(text.starts_with(b"header\t1\t80\t"));
    assert!(text.ends_with(last.as_bytes()));
    listed("65,536 bytes", &whole, &text);
    // What lies behind the buffer is ignored, however much it is.
    for more in [1, 65_536, 1_000_000] {
        let mut message = whole.clone();
        message.resize(65_536 + more, 0xFF);
        listed(&format!("{more} more"), &message, &text);
    }
    let (too_long, _) = long(65_537);
    listed("65,537 bytes", &too_long, &refused(2, 65_537));
    compared(5, "listings of long inputs");
}

/// Pairs of 65,534 bytes, which go past any section (32), don't fit the buffer:
/// the program says that bytes are wanted.
#[test]
fn pairs_that_take_too_many_bytes() {
    let mut message = small(0, 0).image().bytes;
    message.truncate(20);
    message.extend([0xFF, 0xFF, 0, 1, 0, 0, 0xFF, 0xFA]);
    message.resize(20 + 8 + 65_530, b'a');
    assert_eq!(reference::host_answer(&message, 0), (32, 0));
    listed("pairs of 65,534 bytes", &message, &refused(2, 20 + 65_537));
    compared(1, "listings of too many bytes of pairs");
}

/// Nothing is left from one part of the input to the next: it is read in
/// pieces, of which the last may be short.
#[test]
fn every_cut_of_a_header() {
    let message = small(3, 2).image().bytes;
    for cut in 0..=message.len() {
        let message = &message[..cut];
        assert!(program(message) == reference::listing(message), "{cut}");
    }
    compared(message.len() as u64 + 1, "listings of a header's cuts");
}
