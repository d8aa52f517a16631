//! Datagrams (RFC 7574, sections 7 and 8, as 01 narrows them): four bytes of
//! destination channel, then messages, each led by its type byte. All numbers
//! are big-endian. Messages name chunks by ranges or, after 02's No. 1, by bins.

mod layout;
mod names;
mod nodes;
mod read;
mod write;

#[cfg(test)]
mod plain;
#[cfg(test)]
mod tests;

pub(crate) use layout::check;
pub use layout::layout;
pub use names::Addressing;
pub(crate) use names::{ByBins, ByRanges, Names};
pub(crate) use nodes::Nodes;
pub use read::step;
pub(crate) use read::{effect, Effect};
pub use write::{add, begin};
pub(crate) use write::{address, append};

/// The fewest bytes of a datagram: its destination channel.
pub const MIN_SIZE: usize = 4;
/// The most bytes of a datagram, and the fewest of a room to write one in.
pub const MAX_SIZE: usize = 2048;
/// The bytes of a hash, and of the swarm ID in the fixed options.
pub const HASH_SIZE: usize = 32;

/// The most INTEGRITY messages that a datagram has room for: under bins, each
/// has a type byte, four bytes of bin and a hash.
const MOST_NODES: usize = (MAX_SIZE - MIN_SIZE) / (5 + HASH_SIZE);

/// The type bytes of the messages.
pub(crate) mod kind {
    pub const HANDSHAKE: u8 = 0;
    pub const DATA: u8 = 1;
    pub const ACK: u8 = 2;
    pub const HAVE: u8 = 3;
    pub const INTEGRITY: u8 = 4;
    pub const REQUEST: u8 = 8;
    pub const CANCEL: u8 = 9;
    pub const CHOKE: u8 = 10;
    pub const UNCHOKE: u8 = 11;
}

/// The code of the End option.
const END: u8 = 255;
/// The fixed options before the swarm ID: version 1, least version 1, and a
/// swarm ID of 32 bytes.
const BEFORE_ID: [u8; 7] = [0, 1, 1, 1, 2, 0, 32];
/// The bytes of the fixed options.
const FIXED_SIZE: usize = BEFORE_ID.len() + HASH_SIZE + 12;

/// The fixed options behind the swarm ID: Merkle hash tree, SHA-256, the
/// addressing method, chunks of 1,024 bytes, and End.
const fn behind_id(addressing: Addressing) -> [u8; 12] {
    let method = addressing.number() as u8;
    [3, 1, 4, 2, 6, method, 9, 0, 0, 4, 0, END]
}

/// The options of a HANDSHAKE.
#[derive(Clone, Copy, Debug, PartialEq, Eq)]
pub enum Options {
    /// The fixed ones of the addressing method, around any swarm ID.
    Fixed {
        /// The place of the swarm ID's first byte.
        root: usize,
    },
    /// End alone.
    EndOnly,
    /// Any others of sound layout.
    Other,
}

/// A message. Ranges include both ends; a bin is the range of the chunks that it
/// covers. Places are those in the datagram read, or in the source slice of a
/// message to be written.
#[derive(Clone, Copy, Debug, PartialEq, Eq)]
pub enum Message {
    /// Opens, answers or (from source 0) closes a channel.
    Handshake {
        /// The sender's channel.
        source: u32,
        /// What it is told.
        options: Options,
    },
    /// A chunk, to the datagram's end. Read and added only with a range of one
    /// chunk.
    Data {
        /// The first chunk of its range.
        first: u32,
        /// The last chunk of its range.
        last: u32,
        /// The sender's clock.
        time: u64,
        /// The place of its first byte.
        start: usize,
        /// The number of its bytes.
        len: usize,
    },
    /// Chunks got.
    Ack {
        /// The first of them.
        first: u32,
        /// The last of them.
        last: u32,
        /// The one-way delay sample.
        delay: u64,
    },
    /// Chunks held.
    Have {
        /// The first of them.
        first: u32,
        /// The last of them.
        last: u32,
    },
    /// The hash of a node.
    Integrity {
        /// The first chunk the node covers.
        first: u32,
        /// The last chunk the node covers.
        last: u32,
        /// The place of the hash's first byte.
        hash: usize,
    },
    /// Chunks wanted.
    Request {
        /// The first of them.
        first: u32,
        /// The last of them.
        last: u32,
    },
    /// Chunks no longer wanted.
    Cancel {
        /// The first of them.
        first: u32,
        /// The last of them.
        last: u32,
    },
    /// Requests will not be served.
    Choke,
    /// Requests will be served again.
    Unchoke,
    /// Under bins, a HAVE, REQUEST or CANCEL of the empty bin.
    Empty {
        /// Its type byte.
        kind: u8,
    },
}

/// What stands at a place of a datagram.
#[derive(Clone, Copy, Debug, PartialEq, Eq)]
pub enum Step {
    /// A message.
    Read {
        /// The message.
        message: Message,
        /// The place behind it.
        next: usize,
    },
    /// Nothing: the datagram ends there.
    End,
    /// Something refused with 2 whatever stands around it.
    Refused,
}

/// What a datagram of sound layout carries.
#[derive(Clone, Copy, Debug, PartialEq, Eq)]
pub enum Layout {
    /// One HANDSHAKE.
    HandshakeAlone {
        /// The sender's channel.
        source: u32,
        /// What it is told.
        options: Options,
    },
    /// Any number of messages, none of them HANDSHAKE or DATA.
    Messages,
    /// The same, and DATA behind them.
    MessagesAndData {
        /// The chunk's number.
        chunk: u32,
        /// The sender's clock.
        time: u64,
        /// The place of the chunk's first byte.
        start: usize,
        /// The number of the chunk's bytes.
        len: usize,
    },
}
