//! What a node acts in: the time, the record, and what it sends.

use crate::record::Record;

/// A datagram that a node sends to an address.
#[derive(Debug)]
pub struct Outgoing {
    /// The address.
    pub to: usize,
    /// The bytes.
    pub bytes: Vec<u8>,
}

/// The surroundings of one action of a node.
#[derive(Debug)]
pub struct Context<'a> {
    /// The time.
    pub now: u64,
    /// The record of the run.
    pub record: &'a mut Record,
    /// What is sent.
    pub out: &'a mut Vec<Outgoing>,
}

impl Context<'_> {
    /// Sends bytes to an address.
    pub fn send(&mut self, to: usize, bytes: Vec<u8>) {
        self.out.push(Outgoing { to, bytes });
    }
}
