//! Messages at the greatest length and one byte above it.

use bafirolen::{Mode, Request};
use compare_header::numbers::number;
use compare_header::{compared, reads, writes};
use generator::headers::header_h_at_four_gibibytes;

const GREATEST: usize = u32::MAX as usize;

/// Every reader on one message and start; answers their numbers.
fn every_reader(message: &[u8], start: u64) -> [u32; 8] {
    let request = Request::default().strict().at_most(1);
    [
        number(&reads::read_aad_section(message, start, Mode::Tolerant, &[7; 4]).0),
        number(&reads::read_encrypted_data_keys_section(message, start, None, &[7; 6]).0),
        number(&reads::read_header_body(message, start, request, &[7; 4], &[7; 6]).0),
        number(&reads::read_header_auth_tag(message, start, 0x0178)),
        number(&reads::find_value(message, start, b"lang")),
        reads::host_answer(message, start).0,
        number(&writes::write_only_authenticated(message, start, b"lang", &[0, 4], &[7; 12]).0),
        number(&reads::read_frames(message, start, 4_096, &[7; 6]).0),
    ]
}

#[test]
fn messages_of_four_gibibytes() {
    let message = header_h_at_four_gibibytes();
    let at = GREATEST - 58;
    let starts = [
        0,
        1,
        at,
        at + 20,
        at + 34,
        GREATEST - 2,
        GREATEST,
        GREATEST + 1,
    ]
    .map(|start| start as u64)
    .into_iter()
    .chain([1 << 33, 1 << 63, u64::MAX]);
    let mut count = 0;
    for start in starts {
        // One byte too long: nothing is read, whatever the start.
        assert_eq!(every_reader(&message, start), [1; 8]);
        // At the greatest length all is read, and a cut is a shortage.
        every_reader(&message[..GREATEST], start);
        every_reader(&message[..GREATEST - 1], start);
        count += 24;
    }
    let whole = &message[..GREATEST];
    assert_eq!(every_reader(whole, at as u64)[2], 0);
    let of_the_context = every_reader(whole, at as u64 + 20);
    assert_eq!((of_the_context[4], of_the_context[6]), (0, 0));
    compared(count + 3, "reads of messages of 4 GiB");
}
