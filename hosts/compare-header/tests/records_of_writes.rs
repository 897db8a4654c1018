//! The records of writers as they cross the boundary, and the numbers that a
//! body is written from, of which none is cut.

use bafirolen_sys::*;
use compare_header::records::written;
use compare_header::scale::seeds;
use compare_header::{compared, crossing};
use generator::body_write_cases::body_write_case;
use generator::frame_write_cases::frame_write_case;
use generator::only_cases::only_case;
use generator::write_cases::write_section_case;

#[test]
fn writes() {
    let mut count = 0;
    for seed in seeds(50_000) {
        let case = write_section_case(seed);
        let (text, pairs) = (&case.lent.text, &case.lent.pairs);
        let (mut ours, mut theirs) = (case.out.clone(), case.out);
        // SAFETY: pointers and lengths are those of vectors, all apart.
        let answer = unsafe {
            let (out, out_len) = (ours.as_mut_ptr(), ours.len());
            let (table, len) = (pairs.as_ptr(), pairs.len());
            bafirolen_write_aad_section(text.as_ptr(), text.len(), table, len, out, out_len)
        };
        let wanted = reference::write_aad_section(text, pairs, &mut theirs);
        assert_eq!(answer, written(wanted), "seed {seed}");
        assert!(ours == theirs, "seed {seed}");
        count += 1;
    }
    compared(count, "records of writes");
}

/// A mark of a form may be any number, and any but 0 is old.
#[test]
fn bodies() {
    let (mut count, mut marked) = (0, 0);
    for seed in seeds(100_000) {
        let case = body_write_case(seed);
        let (fields, lent) = (&case.fields, case.lent());
        let (mut ours, mut theirs) = (case.out.clone(), case.out.clone());
        let (id, data) = (&fields.id, &fields.suite_data);
        let (text, pairs, keys) = (lent.text, lent.pairs, lent.keys);
        let list = fields.numbers().into();
        let wanted = reference::header_body_len(&list, id, data, text, pairs, keys);
        let length = crossing::length(lent, None);
        assert_eq!(length, written(wanted), "seed {seed}");
        let answer = crossing::write(lent, None, &mut ours);
        let wanted = reference::write_header_body(&list, id, data, text, pairs, keys, &mut theirs);
        assert_eq!(answer, written(wanted), "seed {seed}");
        assert!(ours == theirs, "seed {seed}");
        marked += u64::from(wanted.is_ok() && fields.form > 1);
        count += 2;
    }
    assert!(marked > 0, "no unknown mark was written");
    compared(count, "records of bodies measured and written");
}

#[test]
fn frames() {
    let mut count = 0;
    for seed in seeds(50_000) {
        let case = frame_write_case(seed);
        let (length, text, table) = (case.frame_length, &case.text, &case.table);
        let (mut ours, mut theirs) = (case.out.clone(), case.out.clone());
        // SAFETY: pointers and lengths are those of vectors, which are only read
        // but for the output, which is apart from the others.
        let (measured, answer) = unsafe {
            let (bytes, numbers) = (text.as_ptr(), table.as_ptr());
            let (out, out_len) = (ours.as_mut_ptr(), ours.len());
            (
                bafirolen_frames_len(length, bytes, text.len(), numbers, table.len()),
                bafirolen_write_frames(
                    length,
                    bytes,
                    text.len(),
                    numbers,
                    table.len(),
                    out,
                    out_len,
                ),
            )
        };
        let wanted = reference::frames_len(length, text, table);
        assert_eq!(measured, written(wanted), "seed {seed}");
        let wanted = reference::write_frames(length, text, table, &mut theirs);
        assert_eq!(answer, written(wanted), "seed {seed}");
        assert!(ours == theirs, "seed {seed}");
        count += 2;
    }
    compared(count, "records of frames measured and written");
}

/// A shortage has a position here too.
#[test]
fn only_authenticated() {
    let mut count = 0;
    for seed in seeds(50_000) {
        let case = only_case(seed);
        let (message, text, required) = (&case.message, case.text(), &case.required);
        let (mut ours, mut theirs) = (case.out.clone(), case.out.clone());
        // SAFETY: pointers and lengths are those of vectors, the output's apart
        // from the others, which are only read.
        let answer = unsafe {
            bafirolen_write_only_authenticated(
                message.as_ptr(),
                message.len(),
                case.start,
                text.as_ptr(),
                text.len(),
                required.as_ptr(),
                required.len(),
                ours.as_mut_ptr(),
                ours.len(),
            )
        };
        let wanted =
            reference::write_only_authenticated(message, case.start, text, required, &mut theirs);
        assert_eq!(answer, written(wanted), "seed {seed}");
        assert!(ours == theirs, "seed {seed}");
        count += 1;
    }
    compared(count, "records of what is only authenticated");
}
