//! The rows of leaves that are written by hand, on the proved ones.

use compare_leaves::report::compared;
use generator::rows::leaves as rows;
use generator::rows::{Place, Refused, Written};
use leaves::LeafPart;

fn place(part: LeafPart) -> Result<Place, Refused> {
    match part.refusal {
        0 => Ok((part.start, part.len)),
        number => Err((number as u32, part.position)),
    }
}

#[test]
fn reads_at_every_edge() {
    let greatest = u64::from(u32::MAX);
    // A length has 32 bits here.
    let lengths = rows::LENGTHS.map(|n| n.min(greatest));
    let bytes = rows::bytes_at_every_edge(greatest, &lengths, |message, start, n| {
        place(leaves::read_bytes(message, start, n as u32))
    });
    let numbers = rows::numbers_at_every_edge(greatest, |message, start, n| {
        let read = match n {
            1 => leaves::read_u8(message, start),
            2 => leaves::read_u16(message, start),
            _ => leaves::read_u32(message, start),
        };
        match read.refusal {
            0 => Ok((read.value, read.tail)),
            number => Err((number as u32, read.position)),
        }
    });
    assert_eq!(bytes + numbers, 132);
    compared(bytes + numbers, "rows of reads at every edge");
}

#[test]
fn entries_read() {
    let read = |message: &[u8], start, end| place(leaves::read_entry(message, start, end));
    let count = rows::entries(read);
    assert_eq!(count, 7);
    compared(count, "rows of entries read");
    let count = rows::entries_within(read);
    assert_eq!(count, 32);
    compared(count, "rows of entries read within an end");
}

/// The leaf says only whether it wrote.
fn write(out: &mut [u8], at: u64, part: &[u8]) -> bool {
    leaves::put_entry(part, (0, part.len() as u64), out, at)
}

fn said(answer: Written) -> bool {
    answer.is_ok()
}

#[test]
fn entries_written() {
    let count = rows::writes_keep_what_they_do_not_fill(rows::entry, write, said)
        + rows::the_longest_entry(write, said);
    assert_eq!(count, 36 + 2);
    compared(count, "rows of entries written");
}
