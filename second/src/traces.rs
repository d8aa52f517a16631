//! Inputs for the replay program, called traces: always the same one for a seed.
//!
//! A trace has an order, peers that open and close channels, chunks that come in
//! any order with the least hashes, all of them or more, messages of every other
//! type, and faults of every kind, alone and in pairs of which the earlier one in
//! 01's order must win. Most lines have a number that follows from how they were
//! made (`Kind::number`), so that the program can be tried with them.
//!
//! The trace is made line by line beside a store that answers it: which IDs were
//! given and which hashes are trusted is asked there.

mod chunks;
mod handshakes;
mod kinds;
mod layouts;
mod lines;
mod maker;
mod mutated;
pub(crate) mod pack;
mod pairs;
mod plain;
#[cfg(test)]
mod tests;

pub use kinds::Kind;

use maker::Maker;

/// A trace and how it was made.
pub struct Trace {
    /// The input.
    pub bytes: Vec<u8>,
    /// The kind of each line; only of the first where that is bad.
    pub kinds: Vec<Kind>,
}

/// The trace of a seed.
pub fn generate(seed: u64) -> Vec<u8> {
    generate_counted(seed).bytes
}

/// The same with the kinds of its lines.
pub fn generate_counted(seed: u64) -> Trace {
    Maker::new(seed).trace()
}
