//! Listings, byte for byte, and what a host is told.

use crate::fields::{fields, Fields};
use crate::headers::{header_h, hex};
use crate::lines::listing as listing_of;
use crate::random::Random;

/// The listing of a message.
pub trait List: Fn(&[u8]) -> Vec<u8> {}

impl<F: Fn(&[u8]) -> Vec<u8>> List for F {}

/// What a host is told of a message and a start: number and position.
pub trait Host: Fn(&[u8], u64) -> (u32, u64) {}

impl<F: Fn(&[u8], u64) -> (u32, u64)> Host for F {}

/// The line of a refusal.
pub fn refused(number: u32, position: u64) -> Vec<u8> {
    format!("refused\t{number}\t{position}\n").into_bytes()
}

pub fn header_h_is_listed(listing: impl List, host_answer: impl Host) -> u64 {
    let wanted = "header\t1\t80\t0178\t02\t4096\t58\n\
                  id\t000102030405060708090a0b0c0d0e0f\n\
                  pair\t6c616e67\t6379\n\
                  key\t7031\t61\taabbcc\n";
    let mut compared = 0;
    assert_eq!(listing(&header_h()), wanted.as_bytes());
    compared += 1;
    assert_eq!(host_answer(&header_h(), 0), (0, 58));
    compared + 1
}

pub fn refusals_are_listed(listing: impl List) -> u64 {
    let h = header_h();
    let mut zero = h.clone();
    zero[56] = 0;
    let mut no_key = h.clone();
    no_key[35] = 0;
    let rows = [
        (&h[..57], refused(2, 58)),
        (&h[..22], refused(2, 34)),
        (&[][..], refused(2, 1)),
        (&no_key[..], refused(38, 0)),
        (&zero[..], refused(20, 0)),
        (&[0][..], refused(3, 0)),
    ];
    for (message, wanted) in &rows {
        assert_eq!(listing(message), *wanted);
    }
    rows.len() as u64
}

/// H with other counts of pairs and keys, each pair's key of two bytes.
fn counted(pairs: usize, keys: usize) -> Fields {
    let mut random = Random::new(1);
    let mut fields = fields(&mut random);
    fields.pairs = (0..pairs)
        .map(|i| {
            (
                vec![b'0' + (i / 64) as u8, b'0' + (i % 64) as u8],
                Vec::new(),
            )
        })
        .collect();
    fields.keys = vec![[b"p".to_vec(), Vec::new(), hex("AA")]; keys];
    fields.form = 0;
    fields
}

/// The tables hold 1,024 pairs and 682 keys.
pub fn the_listings_tables_have_limits(listing: impl List) -> u64 {
    let rows = [
        (1024, 682, None),
        (1025, 682, Some(refused(22, 0))),
        (1024, 683, Some(refused(23, 0))),
        (1025, 683, Some(refused(22, 0))),
    ];
    let count = rows.len() as u64;
    for (pairs, keys, wanted) in rows {
        let fields = counted(pairs, keys);
        let message = fields.image().bytes;
        let wanted = wanted.unwrap_or_else(|| listing_of(&fields).into_bytes());
        assert_eq!(listing(&message), wanted, "{pairs} pairs, {keys} keys");
    }
    count
}

/// A header that ends at byte 65,536 is listed, one byte more is cut off;
/// a host's bytes are taken whole.
pub fn the_programs_input_has_a_limit(listing: impl List, host_answer: impl Host) -> u64 {
    let mut compared = 0;
    for more in [0, 1] {
        let mut fields = counted(3, 2);
        let room = 65_536 + more - fields.image().bytes.len();
        fields.keys[0][2].resize(1 + room, 0x55);
        let mut message = fields.image().bytes;
        let end = message.len();
        assert_eq!(end, 65_536 + more);
        message.extend([0xFF; 100]);
        let wanted = if more == 0 {
            listing_of(&fields).into_bytes()
        } else {
            refused(2, end as u64)
        };
        assert_eq!(listing(&message), wanted);
        compared += 1;
        assert_eq!(host_answer(&message, 0), (0, end as u64));
        compared += 1;
    }
    compared
}
