//! A replay program, of which nothing but its input and output is known, beside
//! the one of `second`: on the named traces of the repository and on random ones.

#![forbid(unsafe_code)]

pub mod difference;
pub mod named;
pub mod program;
pub mod seeds;
pub mod tally;
