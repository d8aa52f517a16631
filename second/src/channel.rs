//! The channel part: an order, a table of 16 channels, and the entry points of
//! 01, over rooms that the caller lends.
//!
//! Each call checks for itself, in 01's order. It has an answer for every state,
//! also for one that no call wrote, for rooms of any size with anything in them,
//! and for any numbers and bytes. A refusal changes neither the state nor any
//! room.

mod calls;
mod opening;
mod rooms;
mod starting;
mod taking;
mod writing;

#[cfg(test)]
mod tests;

pub use calls::{add, ask, begin, build, open, start, take, write};
pub use rooms::{Rooms, Sizes};

use crate::answer::{self, Refusal};
use crate::sha256::Digest;
use crate::store::check_length;
use crate::wire::Addressing;

/// The rows of the channel table.
pub const CHANNELS: usize = 16;

/// How a row of the channel table is used.
#[derive(Clone, Copy, Debug, Default, PartialEq, Eq)]
pub enum Phase {
    /// Not in use.
    #[default]
    Free,
    /// We sent our HANDSHAKE, and wait for the peer's.
    Calling,
    /// The peer's HANDSHAKE came, and ours was sent.
    Open,
}

/// The record of a channel. That of a free row, as starting leaves it, is the
/// default one.
#[derive(Clone, Copy, Debug, Default, PartialEq, Eq)]
pub struct Row {
    /// How the row is used.
    pub phase: Phase,
    /// Our channel number, to which the peer sends.
    pub id: u32,
    /// The peer's source channel, to which replies go; 0 while calling.
    pub peer: u32,
    /// The mark that CHOKE sets and UNCHOKE clears.
    pub choked: bool,
}

/// The order and the channel table: all of a store that is not in the rooms.
#[derive(Clone, Debug, Default, PartialEq, Eq)]
pub struct State {
    /// The order's root hash.
    pub root: Digest,
    /// The order's length in bytes; 0 before the first start.
    pub length: u32,
    /// The order's addressing method.
    pub addressing: Addressing,
    /// The channel table.
    pub rows: [Row; CHANNELS],
}

impl State {
    /// The checks that come first in every call on a running store, 12 and 11,
    /// and the sizes that the rooms have at least.
    fn check(&self, rooms: &Rooms) -> Result<Sizes, u8> {
        check_length(self.length)?;
        let sizes = Sizes::of(self.length);
        rooms.check(&sizes)?;
        Ok(sizes)
    }

    /// The lowest row that is in use under an ID.
    fn find(&self, id: u32) -> Option<usize> {
        self.rows
            .iter()
            .position(|row| row.phase != Phase::Free && row.id == id)
    }

    /// The lowest row that is open under an ID; a calling row with the same ID in
    /// a lower place is passed over.
    fn lowest_open(&self, id: u32) -> Option<usize> {
        self.rows
            .iter()
            .position(|row| row.phase == Phase::Open && row.id == id)
    }

    /// The row that a datagram to a channel goes to, which is not channel 0.
    fn destination(&self, id: u32) -> Result<usize, u8> {
        let index = if id == 0 { None } else { self.find(id) };
        index.ok_or(answer::NO_CHANNEL)
    }

    /// The lowest row that is not in use.
    fn lowest_free(&self) -> Option<usize> {
        self.rows.iter().position(|row| row.phase == Phase::Free)
    }
}

/// What a call gives back.
#[derive(Clone, Copy, Debug, PartialEq, Eq)]
pub struct Outcome {
    /// 01's number for it; 0 is done.
    pub number: u8,
    /// The bytes of the reply, from the front of the reply room; 0 for none.
    pub length: usize,
    /// The node that 9 and 10 name (02, No. 3), as a bin number under either
    /// method; none with any other number.
    pub node: Option<u64>,
}

impl From<Result<usize, Refusal>> for Outcome {
    fn from(result: Result<usize, Refusal>) -> Self {
        match result {
            Ok(length) => Outcome {
                number: answer::DONE,
                length,
                node: None,
            },
            Err(refusal) => Outcome {
                number: refusal.number(),
                length: 0,
                node: refusal.node(),
            },
        }
    }
}

impl From<Result<usize, u8>> for Outcome {
    fn from(result: Result<usize, u8>) -> Self {
        result.map_err(Refusal::from).into()
    }
}

/// What asking gives back.
#[derive(Clone, Copy, Debug, PartialEq, Eq)]
pub struct Held {
    /// 01's number for it; 0 is done.
    pub number: u8,
    /// How many chunks are in the map; 0 if refused.
    pub count: u32,
    /// Whether every chunk is in it; not so if refused.
    pub whole: bool,
}
