//! The cases of document 01, with the answers it gives, or document 02 in its
//! place: the unmarked ones, and the marked ones beside them.

use bafirolen::{Mode, Request, Which};
use compare_header::numbers::{Answer, Section};
use compare_header::{compared, reads, writes};
use generator::headers::{header_h, header_h_refused, header_h_with, hex};

/// Count and tail, or number and position.
type Row = Result<(usize, u64), (u32, u64)>;

fn row(answer: Answer<Section>) -> Row {
    answer
        .map(|read| (read.count, read.tail))
        .map_err(|refusal| (refusal.number(), refusal.position()))
}

#[test]
fn sections() {
    use Mode::{Strict, Tolerant};
    let rows: [(&str, Mode, Row); 15] = [
        ("00 01 00 00", Tolerant, Err((32, 0))),
        ("00 01 00 00", Strict, Err((32, 0))),
        ("00 08 00 01 00 02 C0 80 00 00", Tolerant, Err((10, 0))),
        ("00 08 00 01 00 00 00 02 C0 80", Tolerant, Err((11, 0))),
        ("00 00", Tolerant, Ok((0, 2))),
        ("00 00", Strict, Ok((0, 2))),
        ("00 02 00 00", Tolerant, Ok((0, 4))),
        ("00 02 00 00", Strict, Err((21, 0))),
        ("00 02 00 01", Tolerant, Err((8, 0))),
        ("00 03 00 00 00", Tolerant, Err((9, 0))),
        ("00 01 00", Tolerant, Err((32, 0))),
        ("00 06 00 01 00 00 00 00", Tolerant, Ok((1, 8))),
        ("00 0A 00 02 0000 0000 0000 0000", Tolerant, Err((12, 0))),
        ("00 04 00 01 00 05", Tolerant, Err((32, 0))),
        ("00 04 00 01 00 05 6162636465 00 00", Tolerant, Err((32, 0))),
    ];
    for (bytes, mode, wanted) in rows {
        let (answer, _) = reads::read_aad_section(&hex(bytes), 0, mode, &[7; 9]);
        assert_eq!(row(answer), wanted, "{bytes}");
    }
    compared(rows.len() as u64, "sections of document 01");
}

#[test]
fn pairs_of_65_533_and_65_534_bytes() {
    let text = vec![b'a'; 65_530];
    let mut long = hex("FF FF 00 01 00 00 FF F9");
    long.extend(&text[..65_529]);
    let (answer, table) = reads::read_aad_section(&long, 0, Mode::Strict, &[7; 5]);
    assert_eq!(row(answer), Ok((1, 65_537)));
    assert_eq!(table, [6, 0, 8, 65_529, 7]);
    // Whatever the stored length, as none can be right.
    let mut count = 1;
    for stored in ["FF FF", "FF FE", "00 03"] {
        let mut section = hex(stored);
        section.extend(hex("00 01 00 00 FF FA"));
        section.extend(&text);
        let (answer, _) = reads::read_aad_section(&section, 0, Mode::Tolerant, &[7; 4]);
        assert_eq!(row(answer), Err((32, 0)));
        count += 1;
    }
    let out = vec![0; 65_538];
    let (answer, written) = writes::write_aad_section(&text, &[0, 0, 0, 65_529], &out);
    assert_eq!(answer, Ok(65_537));
    assert!(written[..65_537] == long);
    let (answer, _) = writes::write_aad_section(&text, &[0, 0, 0, 65_530], &out);
    assert_eq!(answer.map_err(|refusal| refusal.number()), Err(13));
    compared(count + 2, "pairs of 65,533 and 65,534 bytes");
}

#[test]
fn keys() {
    let one = "00 01 00 02 70 31 00 01 61 00 03 AA BB CC";
    let equal = "00 02 00 01 70 00 00 00 00 00 01 70 00 00 00 00";
    let rows: [(&str, Option<u64>, Row); 8] = [
        ("00 00", None, Err((38, 0))),
        ("00 00", Some(0), Err((38, 0))),
        (equal, None, Ok((2, 16))),
        (equal, Some(1), Err((15, 0))),
        (one, Some(0), Err((15, 0))),
        (one, Some(1), Ok((1, 14))),
        // The count is tested before any key is read.
        ("00 01", Some(0), Err((15, 0))),
        ("00 01", Some(u64::MAX), Err((2, 4))),
    ];
    for (bytes, max, wanted) in rows {
        let (answer, _) = reads::read_encrypted_data_keys_section(&hex(bytes), 0, max, &[7; 13]);
        assert_eq!(row(answer), wanted, "{bytes}");
    }
    compared(rows.len() as u64, "key sections of document 01");
}

#[test]
fn header_h_whole_cut_and_moved() {
    let h = header_h();
    let (today, old) = (header_h_with("00 00"), header_h_with("00 02 00 00"));
    let accepted = [(h, 0, (0, 58)), (today, 0, (0, 46)), (old, 0, (0, 48))];
    let mut count = 0;
    for (message, start, wanted) in accepted.into_iter().chain(header_h_refused()) {
        assert_eq!(reads::host_answer(&message, start), wanted);
        count += 1;
    }
    compared(count, "headers of document 01");
}

/// A frame length that doesn't go with the content type: 20 by the reader of
/// either version, for both breaches; those of one version take it.
#[test]
fn frame_lengths() {
    let mut count = 0;
    for (at, byte) in [(48, 1), (56, 0)] {
        let mut message = header_h();
        message[at] = byte;
        for (which, wanted) in [(Which::Either, Some(20)), (Which::V1Only, None)] {
            let request = Request::default().only(which);
            let (answer, _) = reads::read_header_body(&message, 0, request, &[7; 4], &[7; 6]);
            assert_eq!(answer.err().map(|refusal| refusal.number()), wanted);
            count += 1;
        }
    }
    compared(count, "frame lengths");
}

#[test]
fn authentication_records() {
    let bytes: Vec<u8> = (1..=28).collect();
    let first = reads::read_header_auth_tag(&bytes, 0, 0x0178).expect("a record of version 1");
    assert_eq!(first.iv, bytes[..12]);
    assert_eq!((&first.tag[..], first.tail), (&bytes[12..], 28));
    let second = reads::read_header_auth_tag(&bytes, 3, 0x0578).expect("a record of version 2");
    assert_eq!((second.iv, second.tail), ([0; 12], 19));
    assert_eq!(second.tag, bytes[3..19]);
    // Version 2 ignores what the IV holds, but not its length.
    let (iv, tag) = bytes.split_at(12);
    let (answer, out) = writes::write_header_auth_tag(0x0578, iv, tag, &[9; 17]);
    assert_eq!(answer, Ok(16));
    assert_eq!((&out[..16], out[16]), (tag, 9));
    let (answer, _) = writes::write_header_auth_tag(0x0578, &[], tag, &[9; 17]);
    assert_eq!(answer.map_err(|refusal| refusal.number()), Err(19));
    compared(4, "authentication records of document 01");
}
