//! Two regular frames and a final one.

use super::every_pair::{frame, Fault, Listed};
use compare_header::numbers::answered;
use compare_header::{reads, Coverage};
use generator::faults::FrameDraft;

/// The tests of a regular frame. Its reads are counted from 0.
fn regular(at: usize) -> [Fault<FrameDraft>; 5] {
    let name = |what: &str| format!("{what} {}", at + 1);
    [
        frame(&name("2 number"), move |d| d.cut(at, 0)),
        frame(&name("34 number"), move |d| d.number_off(at)),
        frame(&name("2 IV"), move |d| d.cut(at, 1)),
        frame(&name("2 content"), move |d| d.cut(at, 2)),
        frame(&name("2 tag"), move |d| d.cut(at, 3)),
    ]
}

/// Read frames.
pub fn frames() -> Listed<FrameDraft> {
    let mut list = vec![
        frame("1 start", |d| d.start = 1 << 32),
        frame("20 frame length", |d| d.frame_length = 0),
    ];
    list.extend(regular(0));
    list.extend(regular(1));
    list.extend([
        frame("2 mark", |d| d.cut(2, 0)),
        frame("2 number 3", |d| d.cut(2, 1)),
        frame("34 number 3", |d| d.number_off(2)),
        frame("2 IV 3", |d| d.cut(2, 2)),
        frame("2 content 3 length", |d| d.cut(2, 3)),
        frame("35 content 3 length", |d| d.final_too_long()),
        frame("2 content 3", |d| d.cut(2, 4)),
        frame("2 tag 3", |d| d.cut(2, 5)),
        frame("23 frame table", |d| d.numbers -= 1),
    ]);
    Listed {
        operation: "read frames",
        version: None,
        sound: FrameDraft::sound(),
        list,
    }
}

#[test]
fn read() {
    let mut answers = Coverage::default();
    frames().every_pair(&mut answers, |d| {
        let (message, table) = (d.message(), vec![7; d.numbers]);
        answered(&reads::read_frames(&message, d.start, d.frame_length, &table).0)
    });
    answers.assert_complete(["read frames"]);
}
