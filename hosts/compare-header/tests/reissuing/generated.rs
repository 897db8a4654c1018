//! Generated requests. Each refusal that an operation lists has to come about.

use super::foretold;
use compare_header::expected::as_expected;
use compare_header::lengths::Tried;
use compare_header::numbers::number;
use compare_header::reissues::{reissue, reissued_len, SOUND};
use compare_header::scale::{no_fewer, seeds};
use compare_header::{compared, crossing, records, Coverage};
use generator::reissue_cases::reissue_case;
use generator::Expected;

/// 6 and 7 are listed twice: how often each was answered of the draft's own
/// suite, and of the new one.
#[derive(Default)]
struct Suites([[u64; 2]; 2]);

impl Suites {
    /// With what is sound the draft alone can be refused.
    fn answered(&mut self, number: u32, message: &[u8], start: u64) {
        if number == 6 || number == 7 {
            let own = reissued_len(message, start, SOUND).err();
            let own = own.map(|refusal| refusal.number());
            assert!(own.is_none_or(|own| own == number), "{own:?}, {number}");
            self.0[number as usize - 6][usize::from(own.is_some())] += 1;
        }
    }

    fn assert_both(&self) {
        let all = self.0.iter().flatten();
        assert!(all.copied().all(|count| count > 100), "{:?}", self.0);
    }
}

/// The output begins with the body that the request was made of, joined by
/// concatenation alone, and keeps its bytes beyond.
#[test]
fn reissued() {
    let (mut coverage, mut suites) = (Coverage::default(), Suites::default());
    let (mut count, mut old_forms) = (0, 0);
    for seed in no_fewer(150_000) {
        let case = reissue_case(seed);
        let (message, start, added) = (&case.message, case.start, case.added());
        let (answer, out) = reissue(message, start, added, &case.out);
        let number = number(&answer);
        coverage.count("reissue body", number);
        as_expected(seed, &answer, case.expected);
        suites.answered(number, message, start);
        if case.expected == Expected::Accepted {
            let image = case.fields.image().bytes;
            assert!(out.starts_with(&image), "seed {seed}");
            let length = answer.unwrap_or(0);
            assert_eq!(length, image.len(), "seed {seed}");
            assert!(out[length..] == case.out[length..], "seed {seed}");
            old_forms += u64::from(length + 2 == (case.end - start) as usize + 42);
        }
        count += 1;
    }
    suites.assert_both();
    assert!(old_forms > count / 100, "{old_forms} of {count}");
    coverage.print();
    coverage.assert_complete(["reissue body"]);
    compared(count, "drafts reissued");
}

/// The length that is told before is that of the body, or the refusal; 28 is
/// none of those. With what is sound it is the one that reading foretells.
#[test]
fn measured() {
    let mut coverage = Coverage::default();
    let mut count = 0;
    for seed in no_fewer(60_000) {
        let case = reissue_case(!seed);
        let (message, start) = (&case.message, case.start);
        let length = reissued_len(message, start, case.added());
        coverage.count("reissued length", number(&length));
        match case.expected {
            Expected::Accepted | Expected::Refused(28, _) => {
                assert_eq!(length, Ok(case.fields.image().bytes.len()), "seed {seed}");
            }
            refused => as_expected(seed, &length, refused),
        }
        let sound = reissued_len(message, start, SOUND);
        assert_eq!(sound, foretold(message, start), "seed {seed}");
        count += 2;
    }
    coverage.print();
    coverage.assert_complete(["reissued length"]);
    compared(count, "drafts measured to be reissued");
}

/// Ours with outputs of every length up to a few bytes more than the body's, or
/// than what is read could become: each answer is foretold, and what isn't
/// written keeps.
#[test]
fn whatever_the_output() {
    let mut tried = Tried::default();
    for seed in seeds(2_000) {
        let case = reissue_case(seed ^ 0x0CA5_0000);
        let (message, start, added) = (&case.message, case.start, case.added());
        let plenty = vec![0; message.len() + 42];
        let (length, mut image) = reissue(message, start, added, &plenty);
        image.truncate(length.unwrap_or(image.len()));
        tried.every_output(seed, (length, &image), |out| {
            records::answer(crossing::reissue(message, start, added, out))
        });
    }
    let count = tried.both_came_about();
    compared(count, "drafts reissued into every output");
}
