//! Sample drafts cut at every offset, read from every start, and with every byte
//! replaced by every other.

use super::foretold;
use compare_header::numbers::number;
use compare_header::reissues::{reissue, SOUND};
use compare_header::{compared, Coverage};
use generator::drafts::samples;
use generator::rows::Added;

/// What is sound, and what isn't in one of its parts: each is refused only where
/// the draft is not.
fn added() -> [(Added<'static>, u32); 5] {
    let [id, suite_data] = [SOUND.id, SOUND.suite_data].map(|part| &part[1..]);
    let suite = |suite| Added { suite, ..SOUND };
    [
        (SOUND, 0),
        (suite(0x0477), 6),
        (suite(0x0378), 7),
        (Added { id, ..SOUND }, 24),
        (
            Added {
                suite_data,
                ..SOUND
            },
            25,
        ),
    ]
}

/// All that is asked of one draft; answers how often.
fn every_reissue(coverage: &mut Coverage, message: &[u8], start: u64) -> u64 {
    let sound = foretold(message, start);
    let out = vec![0x7A; message.len() + 42];
    for (added, fault) in added() {
        let (answer, _) = reissue(message, start, added, &out);
        coverage.count("reissue body", number(&answer));
        match (sound, fault) {
            (Ok(_), 1..) => assert_eq!(number(&answer), fault),
            (sound, _) => assert_eq!(answer, sound),
        }
    }
    5
}

/// Of version 2 nothing is read but its first byte.
#[test]
fn every_cut() {
    let (mut coverage, mut count) = (Coverage::default(), 0);
    for draft in samples() {
        for cut in 0..=draft.len() {
            count += every_reissue(&mut coverage, &draft[..cut], 0);
            if draft[0] == 2 && cut > 0 {
                assert_eq!(foretold(&draft[..cut], 0).map_err(|no| no.number()), Err(4));
            }
        }
        for start in 0..=draft.len() as u64 + 1 {
            count += every_reissue(&mut coverage, &draft, start);
            let before = vec![0x80; start as usize];
            let later = [&before, &draft[..], b"rest"].concat();
            count += every_reissue(&mut coverage, &later, start);
        }
    }
    coverage.assert_answered(["reissue body"]);
    compared(count, "drafts to reissue, cut and moved");
}

/// A byte that is another may be that of a length or a count: then other parts
/// are reissued, or none.
#[test]
fn every_byte() {
    let (mut coverage, mut count) = (Coverage::default(), 0);
    for mut draft in samples().filter(|draft| draft[0] == 1) {
        for at in 0..draft.len() {
            let right = draft[at];
            for byte in 0..=0xFF {
                draft[at] = byte;
                count += every_reissue(&mut coverage, &draft, 0);
            }
            draft[at] = right;
        }
    }
    coverage.assert_answered(["reissue body"]);
    compared(count, "drafts to reissue with one byte replaced");
}
