//! A run that breaks what a shorter one promised is noticed, and no other.

use compare_header::fetched::{Promised, Run};
use std::panic::{catch_unwind, AssertUnwindSafe};

/// An answer, and what the tables hold then.
fn run((number, position): (u32, u64), table: u32) -> Run<u32> {
    Run {
        number,
        position,
        tail: (number == 0).then_some(6),
        told: table,
    }
}

/// How many bytes there are, what is answered, and what the table holds.
type Fed = (usize, (u32, u64), u32);

/// Whether runs, the last of which is not yet that on the whole, are kept.
fn kept(runs: &[Fed], whole: Option<Fed>) -> bool {
    catch_unwind(AssertUnwindSafe(|| {
        let mut promised = Promised::default();
        for &(held, answer, table) in runs {
            promised.next(held, run(answer, table), String::new);
        }
        if let Some((_, answer, table)) = whole {
            promised.end(&run(answer, table), String::new);
        }
    }))
    .is_ok()
}

const ACCEPTED: (u32, u64) = (0, 0);
const REFUSED: (u32, u64) = (8, 0);

#[test]
fn what_is_promised() {
    let short = [(0, (2, 3), 7), (2, (2, 3), 7), (3, (2, 6), 7)];
    assert!(kept(&short, None));
    for answer in [ACCEPTED, REFUSED] {
        let settled = [(6, answer, 5), (7, answer, 5), (90, answer, 5)];
        let runs = [&short[..], &settled].concat();
        assert!(kept(&runs, Some(runs[4])));
    }
    // All that is wanted was fetched, or less, or more.
    for held in [3, 4, 9] {
        assert!(kept(&[(0, (2, 3), 7), (held, (2, 10), 7)], None));
    }
    assert!(kept(&short, Some(short[2])));
}

#[test]
fn what_breaks_it() {
    let broken: [&[Fed]; 9] = [
        // A position that is there.
        &[(3, (2, 3), 7)],
        &[(3, (2, 2), 7)],
        // Another answer to more, other numbers in the table, a shortage.
        &[(6, ACCEPTED, 5), (7, ACCEPTED, 6)],
        &[(6, REFUSED, 7), (7, (9, 0), 7)],
        &[(6, REFUSED, 7), (7, (2, 9), 7)],
        &[(6, ACCEPTED, 5), (6, REFUSED, 7)],
        // Fewer bytes than are wanted, and another answer.
        &[(0, (2, 6), 7), (5, (2, 7), 7)],
        &[(0, (2, 6), 7), (5, ACCEPTED, 5)],
        &[(0, (2, 6), 7), (5, (2, 6), 8)],
    ];
    for runs in broken {
        assert!(!kept(runs, None), "{runs:?}");
    }
    // Another answer to the whole, and a position behind its tail, which is 6.
    let runs = [(6, ACCEPTED, 5)];
    assert!(!kept(&runs, Some((6, REFUSED, 5))));
    assert!(!kept(&runs, Some((6, ACCEPTED, 6))));
    let runs = [(0, (2, 7), 7), (7, ACCEPTED, 5)];
    assert!(!kept(&runs, Some(runs[1])));
}
