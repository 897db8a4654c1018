//! Sample drafts cut at every offset, and with every byte replaced by every
//! other: whatever they are then, both answer the same and leave the same bytes.

use compare_header::numbers::number;
use compare_header::{compared, mends, Coverage};
use generator::drafts::samples;

/// Provider IDs that the samples have, and others.
const IDS: [&[u8]; 4] = [b"p1", b"p", b"", b"\xFF"];

/// All that is asked of one draft with bytes behind it; answers how often.
fn every_mend(coverage: &mut Coverage, draft: &[u8], rooms: &[usize]) -> u64 {
    let mut count = 0;
    for &room in rooms {
        let mut buffer = draft.to_vec();
        buffer.resize(draft.len() + room, 0x7A);
        for id in IDS {
            let (answer, _) = mends::drop_keys(&buffer, id);
            coverage.count("drop keys", number(&answer));
            count += 1;
        }
        for key in [[&b"p2"[..], b"", b"\xAA"], [b"\xC3", b"", b""]] {
            let (answer, _) = mends::add_key(&buffer, key);
            coverage.count("add key", number(&answer));
            count += 1;
        }
    }
    count
}

/// A draft that is cut has nothing behind it, so these are buffers of every
/// length.
#[test]
fn every_cut() {
    let (mut coverage, mut count) = (Coverage::default(), 0);
    for draft in samples() {
        for cut in 0..draft.len() {
            count += every_mend(&mut coverage, &draft[..cut], &[0]);
        }
        count += every_mend(&mut coverage, &draft, &[0, 1, 8, 9, 10, 100]);
    }
    coverage.assert_answered(["drop keys", "add key"]);
    compared(count, "drafts cut at every offset");
}

/// A byte that is another may be that of a length, a count or an ID: the keys
/// that are dropped are then others, or none.
#[test]
fn every_byte() {
    let (mut coverage, mut count) = (Coverage::default(), 0);
    for mut draft in samples() {
        for at in 0..draft.len() {
            let right = draft[at];
            for byte in 0..=0xFF {
                draft[at] = byte;
                count += every_mend(&mut coverage, &draft, &[9]);
            }
            draft[at] = right;
        }
    }
    coverage.assert_answered(["drop keys", "add key"]);
    compared(count, "drafts with one byte replaced");
}
