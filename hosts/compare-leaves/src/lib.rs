//! What the comparisons of the proved leaves with the separate
//! implementation share.
#![forbid(unsafe_code)]

pub mod records;

pub use report;
