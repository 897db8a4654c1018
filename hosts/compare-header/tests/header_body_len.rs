//! The length of a body before it is written. (Every body that another test
//! writes is measured as well, and tried with outputs about its length.)

use bafirolen::{Draft, Form};
use compare_header::answers::Answers;
use compare_header::expected::as_expected;
use compare_header::lengths::{header_body_len, Tried};
use compare_header::numbers::{number, numbers};
use compare_header::scale::seeds;
use compare_header::{compared, Coverage};
use generator::body_write_cases::{body_write_case, BodyWriteCase};
use generator::large::{keys_of_total, length_without_keys, plain, LONGEST};
use generator::Expected;

fn draft(case: &BodyWriteCase) -> Draft<'_> {
    let fields = &case.fields;
    Draft::new(numbers(&fields.numbers().into()), &fields.id)
        .with_suite_data(&fields.suite_data)
        .with_tables(&case.lent.text, &case.lent.pairs, &case.lent.keys)
}

/// It is that of the image, built by concatenation alone, or the refusal that
/// the request's faults decide; 28 is none of those.
#[test]
fn of_generated_requests() {
    let mut coverage = Coverage::default();
    let (mut count, mut old_forms) = (0, 0);
    for seed in seeds(200_000) {
        // Other requests than those that are written elsewhere.
        let case = body_write_case(!seed);
        let draft = draft(&case);
        let length = header_body_len(&draft);
        coverage.count("body length", number(&length));
        match case.expected {
            Expected::Accepted | Expected::Refused(28, _) => {
                assert_eq!(length, Ok(case.image.len()), "seed {seed}");
                old_forms += u64::from(draft.numbers.form == Form::Old);
            }
            refused => as_expected(seed, &length, refused),
        }
        count += 1;
    }
    coverage.print();
    coverage.assert_complete(["body length"]);
    assert!(old_forms > 0, "no body was marked old");
    compared(count, "lengths of bodies");
}

/// Ours with outputs of every length up to a few bytes more than the body's,
/// or than it would be without its faults: each answer is foretold, and what
/// isn't written keeps.
#[test]
fn whatever_the_output() {
    let mut tried = Tried::default();
    for seed in seeds(3_000) {
        let case = body_write_case(seed ^ 0x1E46_0000);
        let draft = draft(&case);
        let length = header_body_len(&draft);
        tried.every_output(seed, (length, &case.image), |out| {
            bafirolen::write_header_body(&draft, out)
        });
    }
    compared(
        tried.both_came_about(),
        "writes of measured bodies into every output",
    );
}

/// Bodies of 4 GiB and of 8 GiB, and of a few bytes less and more, in both
/// forms; and the longest of all.
#[test]
fn beyond_32_bits() {
    let text = vec![b'a'; LONGEST];
    let mut answers = Answers::default();
    let mut takes = |version, form, (pairs, keys): (&[u32], &[u32]), wanted: u64| {
        let fields = plain(version);
        let mut numbers = numbers(&fields.numbers().into());
        numbers.form = form;
        let draft = Draft::new(numbers, &fields.id)
            .with_suite_data(&fields.suite_data)
            .with_tables(&text, pairs, keys);
        let length = header_body_len(&draft);
        assert_eq!(length, Ok(wanted as usize));
        answers.met(&length, 0);
    };
    for version in [1, 2] {
        for below in [1, 2].map(|times| (times << 32) - 2) {
            for more in [0, 1, 2, 3, 4, 102, 65_537, 120_002] {
                let total = below + more;
                let keys = keys_of_total(total - length_without_keys(version));
                takes(version, Form::Today, (&[], &keys), total);
                takes(version, Form::Old, (&[], &keys), total + 2);
            }
        }
    }
    // Pairs of 65,533 bytes; and every part of every key is the whole text.
    let keys = [0, LONGEST as u32].repeat(3 * LONGEST);
    let longest = 76 + 2 + 65_533 + 65_535 * (6 + 3 * 65_535);
    let tables = (&[0, 65_000, 0, 529][..], &keys[..]);
    takes(2, Form::Today, tables, longest);
    assert_eq!(longest, 12_884_967_496);
    answers.assert_are("lengths beyond 32 bits", &[(0, 2 * 2 * 8 * 2 + 1)]);
}
