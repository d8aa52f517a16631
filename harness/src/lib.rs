//! The outside comparisons: the proved code, linked as static libraries, beside
//! the independent implementation in `second`. The loader's calls go through
//! `ppspp`, with the library's own numbers. The tests stand in `tests/`, the
//! benchmarks in `src/bin/`.

#![deny(unsafe_code)]

pub mod arriving;
pub mod bench;
pub mod beside;
pub mod by_hand;
pub mod caller;
pub mod calls;
pub mod came;
pub mod channels;
pub mod composing;
pub mod counts;
pub mod datagrams;
pub mod downloads;
pub mod garbling;
pub mod handshakes;
pub mod intervals;
pub mod lists;
pub mod maps;
pub mod naming;
pub mod numbers;
pub mod packets;
pub mod packs;
pub mod proved;
pub mod random;
pub mod rooms;
pub mod runs;
pub mod takes;
pub mod words;
