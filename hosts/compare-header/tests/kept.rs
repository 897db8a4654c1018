//! A change in what is lent to be read is noticed.

use compare_header::kept::{Kept, EVERY, LONG, SHORT};
use std::cell::Cell;
use std::panic::{catch_unwind, AssertUnwindSafe};

/// Whether a call that changes the last byte of the second part is noticed.
fn noticed(length: usize) -> bool {
    let (first, second) = ([Cell::new(1u8)], vec![Cell::new(2u8); length]);
    let kept = Kept::new([&first[..], &second]);
    kept.assert_unchanged("before");
    second[length - 1].set(3);
    catch_unwind(AssertUnwindSafe(|| kept.assert_unchanged("after"))).is_err()
}

fn times(length: usize) -> usize {
    (0..EVERY).filter(|_| noticed(length)).count()
}

#[test]
fn a_change_is_noticed() {
    assert_eq!(times(1), EVERY);
    assert_eq!(times(SHORT), EVERY);
    assert_eq!(times(SHORT + 1), 1);
    assert_eq!(times(LONG), 1);
    assert_eq!(times(LONG + 1), 0);
}
