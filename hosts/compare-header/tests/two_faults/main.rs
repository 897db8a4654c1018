//! Two faults in one request, for every two that an operation lists.
//!
//! Each operation has a table, in the documents' order of tests, of its faults
//! and of how each is planted. Whatever two faults a request has, the answer
//! is the one listed first, with its position; mended, it is the other.
//!
//! A new refusal is a row at its place in a table, and a number in the
//! operation's list of `report`, which the tables are held against, but for
//! copying, what a host is told and bodies of the old form, also where they are
//! reissued, which are made from others.

mod apart;
mod bodies;
mod every_pair;
mod frame_writes;
mod frames;
mod mending;
mod policies;
mod reads;
mod reissuing;
mod sections;
mod writes;

use every_pair::Names;

/// The list of every operation.
fn operations() -> Vec<Names> {
    let mut all = reads::lists();
    all.extend(bodies::lists());
    all.extend(policies::lists());
    all.push(frames::frames().names());
    all.extend(writes::lists());
    all.extend(frame_writes::lists());
    all.extend(mending::lists());
    all.extend(reissuing::lists());
    all
}

/// No row is left over there when a list changes.
#[test]
fn pairs_that_are_named_are_neighbours() {
    let operations = operations();
    let named = apart::NAMED.iter().map(|named| (named.0, named.1));
    for (first, second) in named.chain(apart::SEEN.iter().copied()) {
        let beside = |names: &Names| {
            let mut neighbours = names.windows(2);
            neighbours.any(|two| two[0] == first && two[1] == second)
        };
        assert!(
            operations.iter().any(beside),
            "no list has {first} before {second}"
        );
    }
}

/// The same of those that others stand between.
#[test]
fn pairs_that_are_farther_apart_are_listed() {
    let operations = operations();
    for (first, second, _) in apart::FARTHER {
        let between = |names: &Names| {
            let at = |wanted: &str| names.iter().position(|name| name == wanted);
            matches!((at(first), at(second)), (Some(a), Some(b)) if a + 1 < b)
        };
        assert!(
            operations.iter().any(between),
            "no list has {first} far before {second}"
        );
    }
}
