//! The groups of rows. A new one is a file here and a line in `GROUPS`.

mod bodies;
mod context;
mod drafts;
mod fetch;
mod frames;
mod frames_written;
mod keys;
mod leaves;
mod lengths;
mod lists;
mod policies;
mod reissued;
mod required;

use crate::table::Table;

/// Name, what it is of, and the rows.
pub type Group = (&'static str, &'static str, fn(&mut Table));

pub const GROUPS: &[Group] = &[
    (
        "leaves",
        "UTF-8, entries, equality and order of parts",
        leaves::rows,
    ),
    (
        "context",
        "context sections read, written and authenticated, by their pairs",
        context::rows,
    ),
    (
        "keys",
        "key sections read and written, by their keys",
        keys::rows,
    ),
    (
        "bodies",
        "header bodies read and written, by their sections",
        bodies::rows,
    ),
    (
        "lengths",
        "the length of header bodies, alone and before they are written",
        lengths::rows,
    ),
    (
        "policies",
        "header bodies read and written under a policy",
        policies::rows,
    ),
    (
        "fetch",
        "header bodies read again after each fetch of what is wanted",
        fetch::rows,
    ),
    (
        "frames",
        "frames read, by their number and length; takes up to 4.2 GB",
        frames::rows,
    ),
    (
        "frames_written",
        "frames written, and their length, by their number and length; takes up to 600 MB",
        frames_written::rows,
    ),
    (
        "drafts",
        "drafts from which keys are dropped, and to which one is added",
        drafts::rows,
    ),
    (
        "reissued",
        "drafts of version 1 reissued as bodies of version 2",
        reissued::rows,
    ),
];
