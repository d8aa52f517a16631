//! Messages in words.

use crate::message::{Message, Options};
use crate::order::Addressing;
use core::fmt;

/// In words, such as `HAVE of chunks 0 to 6`.
impl fmt::Display for Message<'_> {
    fn fmt(&self, f: &mut fmt::Formatter<'_>) -> fmt::Result {
        self.in_words(Addressing::Ranges).fmt(f)
    }
}

impl<'a> Message<'a> {
    /// In words under an addressing: under bins such as `HAVE of chunks 4..7 (bin 11)`, else as it is displayed.
    pub fn in_words(self, addressing: Addressing) -> InWords<'a> {
        InWords {
            message: self,
            addressing,
            n: u32::MAX,
        }
    }
}

/// A message in words under an addressing; see [`Message::in_words`].
#[derive(Clone, Copy, Debug)]
pub struct InWords<'a> {
    message: Message<'a>,
    addressing: Addressing,
    n: u32,
}

impl<'a> InWords<'a> {
    /// The same of a message to a store of n chunks: of a bin that runs past the last one, its part inside the pack, as
    /// in `HAVE of chunks 4..6 (bin 11)`.
    pub fn in_pack(self, n: u32) -> Self {
        InWords { n, ..self }
    }

    /// What it names alone, such as `chunks 4..6 (bin 11)`; nothing of a HANDSHAKE, CHOKE or UNCHOKE.
    pub fn chunks(self) -> impl fmt::Display + 'a {
        Chunks(self)
    }
}

impl fmt::Display for InWords<'_> {
    fn fmt(&self, f: &mut fmt::Formatter<'_>) -> fmt::Result {
        let (name, of) = (self.message.name(), self.chunks());
        match self.message {
            Message::Handshake {
                source: 0,
                options: Options::End,
            } => write!(f, "{name} that closes the channel"),
            Message::Handshake { source, options } => {
                write!(f, "{name} from channel {source} with {options}")
            }
            Message::Data {
                timestamp, bytes, ..
            } => {
                let count = bytes.len();
                write!(f, "{name} of {of}, {count} bytes, sent at {timestamp}")
            }
            Message::Ack { delay, .. } => write!(f, "{name} of {of}, delay {delay}"),
            Message::Integrity { hash, .. } => write!(f, "{name} of {of}, hash {}", Hex(hash)),
            Message::Choke | Message::Unchoke => f.write_str(name),
            Message::Have { .. }
            | Message::Request { .. }
            | Message::Cancel { .. }
            | Message::Empty { .. } => write!(f, "{name} of {of}"),
        }
    }
}

/// In words.
impl fmt::Display for Options<'_> {
    fn fmt(&self, f: &mut fmt::Formatter<'_>) -> fmt::Result {
        match *self {
            Options::Fixed { root } => write!(f, "the profile's options, root {}", Hex(root)),
            Options::End => write!(f, "no options"),
            Options::Other => write!(f, "other options"),
        }
    }
}

/// What a message names, in words.
struct Chunks<'a>(InWords<'a>);

impl fmt::Display for Chunks<'_> {
    fn fmt(&self, f: &mut fmt::Formatter<'_>) -> fmt::Result {
        let InWords {
            message,
            addressing,
            n,
        } = self.0;
        match (addressing, message.range(), message.bin()) {
            (_, None, Some(empty)) => empty.fmt(f),
            // One that reaches past the pack is refused, so that no part of it counts.
            (Addressing::Bins, _, Some(bin)) if matches!(message, Message::Integrity { .. }) => {
                bin.fmt(f)
            }
            (Addressing::Bins, _, Some(bin)) => bin.in_pack(n).fmt(f),
            (_, Some((first, last)), _) if first == last => write!(f, "chunk {first}"),
            (_, Some((first, last)), _) => write!(f, "chunks {first} to {last}"),
            (_, None, None) => Ok(()),
        }
    }
}

/// Bytes in hexadecimal digits.
struct Hex<'a>(&'a [u8]);

impl fmt::Display for Hex<'_> {
    fn fmt(&self, f: &mut fmt::Formatter<'_>) -> fmt::Result {
        self.0.iter().try_for_each(|byte| write!(f, "{byte:02x}"))
    }
}
