//! The messages of a datagram.

use crate::naming::Bin;

/// A message of a datagram. It has the first and the last chunk that it names, both included, however it names them:
/// under bins a bin is read as its chunks, though the pack may end before the last of them, and only chunks that are a
/// bin's can be added.
#[derive(Clone, Copy, Debug, PartialEq, Eq, Hash)]
#[non_exhaustive]
pub enum Message<'a> {
    /// Opens a channel, answers that, or closes one.
    Handshake {
        /// The sender's channel, 0 to close.
        source: u32,
        /// The options.
        options: Options<'a>,
    },
    /// A chunk; the last message of its datagram.
    Data {
        /// The first chunk of its range.
        first: u32,
        /// The last chunk of its range. One that was read has the same as the first; to be added, any other is refused.
        last: u32,
        /// The sender's clock.
        timestamp: u64,
        /// The chunk's bytes.
        bytes: &'a [u8],
    },
    /// The sender has stored chunks.
    Ack {
        /// The first chunk.
        first: u32,
        /// The last chunk.
        last: u32,
        /// The sender's clock minus the timestamp, modulo 2^64.
        delay: u64,
    },
    /// The sender has chunks.
    Have {
        /// The first chunk.
        first: u32,
        /// The last chunk.
        last: u32,
    },
    /// The hash of a node.
    Integrity {
        /// The first chunk under the node.
        first: u32,
        /// The last chunk under the node.
        last: u32,
        /// The hash. When added, its first 32 bytes count, and fewer are refused.
        hash: &'a [u8],
    },
    /// The sender wants chunks.
    Request {
        /// The first chunk.
        first: u32,
        /// The last chunk.
        last: u32,
    },
    /// The sender no longer wants chunks.
    Cancel {
        /// The first chunk.
        first: u32,
        /// The last chunk.
        last: u32,
    },
    /// The sender will not answer requests.
    Choke,
    /// The sender will answer requests again.
    Unchoke,
    /// Under bins, a HAVE, REQUEST or CANCEL over no chunk: it has no effect.
    Empty {
        /// Which of them it is.
        kind: EmptyKind,
    },
}

/// A type of which there are messages over no chunk.
#[derive(Clone, Copy, Debug, PartialEq, Eq, Hash)]
pub enum EmptyKind {
    /// HAVE.
    Have,
    /// REQUEST.
    Request,
    /// CANCEL.
    Cancel,
}

/// The options of a HANDSHAKE.
#[derive(Clone, Copy, Debug, PartialEq, Eq, Hash)]
pub enum Options<'a> {
    /// Those of the yard profile under the addressing, around a root.
    Fixed {
        /// The root. When added, its first 32 bytes count, and fewer are refused.
        root: &'a [u8],
    },
    /// End alone, as a closing HANDSHAKE has.
    End,
    /// Others: they are read, and never written.
    Other,
}

impl Message<'_> {
    /// A HANDSHAKE that closes a channel.
    pub const CLOSING: Message<'static> = Message::Handshake {
        source: 0,
        options: Options::End,
    };

    /// The name of its type.
    pub const fn name(&self) -> &'static str {
        match self {
            Message::Handshake { .. } => "HANDSHAKE",
            Message::Data { .. } => "DATA",
            Message::Ack { .. } => "ACK",
            Message::Have { .. } => "HAVE",
            Message::Integrity { .. } => "INTEGRITY",
            Message::Request { .. } => "REQUEST",
            Message::Cancel { .. } => "CANCEL",
            Message::Choke => "CHOKE",
            Message::Unchoke => "UNCHOKE",
            Message::Empty { kind } => match kind {
                EmptyKind::Have => "HAVE",
                EmptyKind::Request => "REQUEST",
                EmptyKind::Cancel => "CANCEL",
            },
        }
    }

    /// The first and the last chunk that it names, if it names any.
    pub fn range(&self) -> Option<(u32, u32)> {
        match *self {
            Message::Data { first, last, .. }
            | Message::Ack { first, last, .. }
            | Message::Have { first, last }
            | Message::Integrity { first, last, .. }
            | Message::Request { first, last }
            | Message::Cancel { first, last } => Some((first, last)),
            Message::Handshake { .. }
            | Message::Choke
            | Message::Unchoke
            | Message::Empty { .. } => None,
        }
    }

    /// The bin that names its chunks, or no chunk; none where it names nothing, or chunks that no bin names.
    pub fn bin(&self) -> Option<Bin> {
        if let Message::Empty { .. } = self {
            return Some(Bin::EMPTY);
        }
        let (first, last) = self.range()?;
        Bin::over(first, last)
    }
}
