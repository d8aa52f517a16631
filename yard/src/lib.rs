//! A yard in one program: a server, vans and an attacker, with a radio in memory between them.
//!
//! The server has a pack, and each van starts empty under its order. Every datagram that reaches one of them is taken
//! in by the proved library, and every reply that the library gives is sent. What the library stores is compared with
//! the pack after each datagram, by code of this package alone. A run is decided by its settings and their seed.

#![forbid(unsafe_code)]
#![deny(missing_docs)]

mod announcing;
pub mod arguments;
pub mod attacker;
pub mod bits;
mod callers;
pub mod checks;
pub mod context;
pub mod datagram;
pub mod events;
mod link;
pub mod naming;
pub mod node;
mod partners;
pub mod plot;
pub mod radio;
pub mod random;
pub mod record;
mod requests;
mod rows;
pub mod run;
mod serving;
pub mod summary;
pub mod tally;
pub mod timing;
