//! Entries written into an output: the answer, and every byte afterwards.

use compare_leaves::report::compared;
use generator::random::Random;
use reference::Place;

/// Writes by both and compares the outputs whole; answers whether it was
/// written.
fn agree(text: &[u8], place: Place, out: &mut [u8], model: &mut [u8], at: u64) -> bool {
    let wanted = place
        .within(text)
        .is_some_and(|part| reference::write_entry(model, at, part).is_ok());
    let ours = leaves::put_entry(text, (place.start, place.len), out, at);
    assert_eq!(
        ours,
        wanted,
        "{place:?} of {} to {at} of {}",
        text.len(),
        out.len()
    );
    assert!(
        out == model,
        "{place:?} of {} to {at} of {}",
        text.len(),
        out.len()
    );
    ours
}

/// Every length up to some blocks, with the room exact, one or two short,
/// and more, at every place up to a block.
#[test]
fn every_length_and_room() {
    let mut random = Random::new(41);
    let text = random.bytes(400);
    let (mut count, mut written) = (0, 0);
    for len in 0..=200usize {
        for at in (0..=17).chain([31, 32, 33, 63, 64, 65]) {
            for room in [-2i64, -1, 0, 1, 2, 16, 70] {
                let size = (at + 2 + len) as i64 + room;
                let mut out = random.bytes(size.max(0) as usize);
                let mut model = out.clone();
                let start = random.below((400 - len + 1) as u64);
                let place = Place {
                    start,
                    len: len as u64,
                };
                written += u64::from(agree(&text, place, &mut out, &mut model, at as u64));
                count += 1;
            }
        }
    }
    // The rooms of 0 and more.
    assert_eq!(written * 7, count * 5);
    compared(count, "entry writes of every length and room");
}

#[test]
fn random_places_and_sizes() {
    let mut random = Random::new(42);
    let text = random.bytes(140_000);
    let fill = random.bytes(140_000);
    let (mut out, mut model) = (fill.clone(), fill);
    let (mut count, mut written) = (0, 0);
    for _ in 0..60_000 {
        let len = match random.below(6) {
            // 65,536 is one too many for an entry.
            0 => 65_536 - random.below(4),
            1 => random.below(65_540),
            _ => random.length(2_000) as u64,
        };
        let start = random.below(140_000 - len + 1);
        let at = random.length(70_000) as u64;
        let exact = at + 2 + len;
        let size = match random.below(4) {
            0 => exact,
            1 => exact - 1,
            2 => exact - 1 - random.below(exact),
            _ => exact + random.below(300),
        } as usize;
        let place = Place { start, len };
        let end = size + 64;
        // The bytes beyond the lent output are compared too.
        let done = agree(&text, place, &mut out[..size], &mut model[..size], at);
        assert!(out[size..end] == model[size..end]);
        written += u64::from(done);
        count += 1;
    }
    assert!(out == model && written > 20_000 && written < count);
    compared(count, "entry writes at random places");
}

/// Parts and outputs that aren't there, up to the ends of 64 bits.
#[test]
fn places_outside() {
    let mut random = Random::new(43);
    let edges = [
        0,
        1,
        2,
        8,
        65_535,
        65_536,
        1 << 32,
        1 << 63,
        u64::MAX - 2,
        u64::MAX - 1,
        u64::MAX,
    ];
    let (mut count, mut written) = (0, 0);
    for _ in 0..1_000_000 {
        let text_len = random.index(20);
        let out_len = random.index(20);
        let text = random.bytes(text_len);
        let mut out = random.bytes(out_len);
        let mut model = out.clone();
        let mut number = |near: usize| match random.below(8) {
            0 => random.pick(&edges),
            1 => random.next_u64(),
            _ => random.below(near as u64 + 3),
        };
        let place = Place {
            start: number(text_len),
            len: number(text_len / 2),
        };
        let at = number(out_len / 2);
        written += u64::from(agree(&text, place, &mut out, &mut model, at));
        count += 1;
    }
    assert!(written > 10_000 && written < count);
    compared(count, "entry writes within and outside");
}
