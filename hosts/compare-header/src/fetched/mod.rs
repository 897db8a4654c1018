//! Messages that are fetched in pieces: a request is asked of longer and longer
//! fronts of one message, and each answer held to what the shorter ones
//! promised of it.
//!
//! Each run is ours and the separate implementation's at once, by the functions
//! of `reads`, `under_policy`, `reissues` and `writes`, which hold the two
//! against each other. So what is promised is held against both.

mod codec;
mod feeding;
mod operations;
mod promised;
pub mod rounds;
mod seen;

pub use codec::Fetching;
pub use feeding::{Fed, Feeder, BY_ONES};
pub use operations::{
    Asked, Body, BodyUnderPolicy, Context, Find, Frames, Host, Keys, OnlyAuthenticated, Record,
    Reissued,
};
pub use promised::{Promised, Run};
pub use seen::Seen;
