//! Two regular frames and a final one, to be written: 19 and 30 are tested of
//! one frame after the other, and 37 and 35 once all have passed.

use super::every_pair::{frame_write, Fault, Listed, Names};
use compare_header::numbers::answered;
use compare_header::{lengths, writes, Coverage};
use generator::faults::FrameWriteDraft;

/// The tests of a frame's IV and tag.
fn sealed(at: usize) -> [Fault<FrameWriteDraft>; 2] {
    let name = |what: &str| format!("{what} {}", at + 1);
    [
        frame_write(&name("19 IV"), move |d| d.iv_longer(at)),
        frame_write(&name("30 tag"), move |d| d.tag_longer(at)),
    ]
}

/// The length of frames, before they are written.
fn length() -> Listed<FrameWriteDraft> {
    let mut list = vec![
        frame_write("20 frame length", |d| d.frame_length = 0),
        frame_write("26 frames in sixes", |d| d.table.push(0)),
        frame_write("26 frame place", |d| d.outside()),
        frame_write("36 no frame", |d| d.no_frame()),
        frame_write("27 frame count", |d| d.too_many()),
    ];
    list.extend([0, 1, 2].into_iter().flat_map(sealed));
    list.extend([
        frame_write("37 content 1", |d| d.content_shorter(0)),
        frame_write("37 content 2", |d| d.content_longer(1)),
        frame_write("35 content 3", |d| d.final_too_long()),
    ]);
    Listed {
        operation: "frames length",
        version: None,
        sound: FrameWriteDraft::sound(),
        list,
    }
}

/// Write frames: what their length is refused by, then the output.
fn frames() -> Listed<FrameWriteDraft> {
    let mut listed = length();
    listed.operation = "write frames";
    listed.list.push(frame_write("28 output", |d| d.room -= 1));
    listed
}

pub fn lists() -> [Names; 2] {
    [length().names(), frames().names()]
}

#[test]
fn lengths_of_frames() {
    let mut answers = Coverage::default();
    length().every_pair(&mut answers, |d| {
        answered(&lengths::frames_len(d.frame_length, &d.text, &d.table))
    });
    answers.assert_complete(["frames length"]);
}

#[test]
fn written() {
    let mut answers = Coverage::default();
    frames().every_pair(&mut answers, |d| {
        let out = vec![0xEE; d.room];
        answered(&writes::write_frames(d.frame_length, &d.text, &d.table, &out).0)
    });
    answers.assert_complete(["write frames"]);
}
