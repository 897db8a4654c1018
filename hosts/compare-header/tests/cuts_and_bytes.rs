//! Sample headers cut at every offset, with every byte replaced by every
//! other, and read from starts up to the ends of 64 bits.

use bafirolen::{Mode, Request, Which};
use compare_header::{compared, reads, request, writes};
use generator::headers::samples;

const REQUESTS: [Request; 6] = [
    request(Which::Either, Mode::Tolerant, None),
    request(Which::Either, Mode::Strict, None),
    request(Which::V1Only, Mode::Tolerant, None),
    request(Which::V1Only, Mode::Strict, None),
    request(Which::V2Only, Mode::Tolerant, None),
    request(Which::V2Only, Mode::Strict, None),
];

/// All that read, on one message and start; answers how many there were.
fn every_reader(message: &[u8], start: u64) -> u64 {
    let (pairs, keys) = ([7; 10], [9; 13]);
    for request in REQUESTS {
        let _ = reads::read_header_body(message, start, request, &pairs, &keys);
    }
    for mode in [Mode::Tolerant, Mode::Strict] {
        let _ = reads::read_aad_section(message, start, mode, &pairs);
    }
    for max in [None, Some(1)] {
        let _ = reads::read_encrypted_data_keys_section(message, start, max, &keys);
    }
    for suite in [0x0178, 0x0578, 0x0177] {
        let _ = reads::read_header_auth_tag(message, start, suite);
    }
    for length in [0, 1, 4_096] {
        let _ = reads::read_frames(message, start, length, &keys);
    }
    for key in [&b"lang"[..], b"a", b"ab", b""] {
        let _ = reads::find_value(message, start, key);
    }
    for room in [0, 12, 40] {
        let (text, required, out) = (b"langab", [4, 2, 0, 4, 4, 1], vec![0x11; room]);
        let _ = writes::write_only_authenticated(message, start, text, &required, &out);
    }
    reads::host_answer(message, start);
    REQUESTS.len() as u64 + 18
}

/// Every start includes those of the two sections.
#[test]
fn every_cut() {
    let mut count = 0;
    for header in samples() {
        for cut in 0..=header.len() {
            for start in 0..=header.len() as u64 + 1 {
                count += every_reader(&header[..cut], start);
            }
        }
    }
    compared(
        count,
        "reads of headers cut at every offset, from every start",
    );
}

#[test]
fn every_byte() {
    let mut count = 0;
    for header in samples() {
        let mut message = vec![0x55; 3];
        message.extend_from_slice(&header);
        message.extend([0x01; 3]);
        for at in 3..message.len() - 3 {
            let right = message[at];
            for byte in 0..=0xFF {
                message[at] = byte;
                for request in REQUESTS {
                    let _ = reads::read_header_body(&message, 3, request, &[7; 8], &[9; 12]);
                    count += 1;
                }
            }
            message[at] = right;
        }
    }
    compared(count, "reads of headers with one byte replaced");
}

/// Every length up to two numbers more than is needed.
#[test]
fn every_table_length() {
    let mut count = 0;
    for header in samples() {
        for pairs in 0..=10 {
            for keys in 0..=14 {
                for request in REQUESTS {
                    let (pairs, keys) = (vec![7; pairs], vec![9; keys]);
                    let _ = reads::read_header_body(&header, 0, request, &pairs, &keys);
                    count += 1;
                }
            }
        }
    }
    compared(count, "reads of headers into tables of every length");
}

#[test]
fn far_starts() {
    let least = u64::from(u32::MAX);
    let near = |middle: u64| (0..=80).map(move |i| middle.saturating_sub(40).saturating_add(i));
    let starts: Vec<u64> = near(least)
        .chain(near(1 << 33))
        .chain(near(1 << 63))
        .chain(near(u64::MAX - 40))
        .collect();
    let mut count = 0;
    for header in samples() {
        for &start in &starts {
            count += every_reader(&header, start);
        }
    }
    compared(count, "reads from far starts");
}
