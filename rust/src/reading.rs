//! Reading a datagram, message by message.

use crate::calls::{self, Numbers};
use crate::message::Message;
use crate::order::Addressing;
use crate::sizes::MIN_DATAGRAM;
use crate::sys;
use core::error::Error;
use core::fmt;
use core::iter::FusedIterator;

/// The destination channel of a datagram; none of one under 4 bytes.
pub fn destination(datagram: &[u8]) -> Option<u32> {
    datagram.first_chunk().copied().map(u32::from_be_bytes)
}

/// The messages of a datagram from left to right, each with its place, read under an addressing. They stop behind the
/// first one that cannot be read, which is an error.
///
/// Each message is judged alone. A store also refuses a datagram for its size, for a node that has two INTEGRITY
/// messages, and for a HANDSHAKE that is not alone or not sound.
pub fn messages(addressing: Addressing, datagram: &[u8]) -> Messages<'_> {
    Messages {
        addressing,
        datagram,
        at: Some(MIN_DATAGRAM),
    }
}

/// Iterator over the messages of a datagram and their places; see [`messages`].
#[derive(Clone, Debug)]
pub struct Messages<'a> {
    addressing: Addressing,
    datagram: &'a [u8],
    /// The place of the next message, unless the last one could not be read.
    at: Option<usize>,
}

impl<'a> Iterator for Messages<'a> {
    type Item = Result<(usize, Message<'a>), Malformed>;

    fn next(&mut self) -> Option<Self::Item> {
        let place = self.at.take()?;
        let mut found = [0; sys::PPSPP_FOUND_WORDS];
        match calls::read(self.datagram, self.addressing.number(), place, &mut found) {
            sys::PPSPP_STEP_END => None,
            sys::PPSPP_STEP_MESSAGE => {
                let (message, next) = message(self.datagram, found);
                self.at = Some(next);
                Some(Ok((place, message)))
            }
            _ => Some(Err(Malformed { place })),
        }
    }
}

impl FusedIterator for Messages<'_> {}

/// The message of the library's words, which fit their types, and the place behind it.
fn message(datagram: &[u8], found: [u64; sys::PPSPP_FOUND_WORDS]) -> (Message<'_>, usize) {
    let at = found[sys::PPSPP_FOUND_BYTES] as usize;
    let count = found[sys::PPSPP_FOUND_BYTES_N] as usize;
    let numbers = Numbers {
        kind: found[sys::PPSPP_FOUND_TYPE] as u32,
        first: found[sys::PPSPP_FOUND_FIRST] as u32,
        last: found[sys::PPSPP_FOUND_LAST] as u32,
        number: found[sys::PPSPP_FOUND_NUMBER],
        // The place of no bytes may be any.
        bytes: datagram.get(at..at + count).unwrap_or_default(),
    };
    let next = found[sys::PPSPP_FOUND_NEXT] as usize;
    (Message::of(numbers), next)
}

/// What stands at a place of a datagram cannot be read as a message: a store refuses it with
/// [`Refusal::Malformed`](crate::Refusal::Malformed).
#[derive(Clone, Copy, Debug, PartialEq, Eq, Hash)]
pub struct Malformed {
    /// The place of its type byte.
    pub place: usize,
}

impl fmt::Display for Malformed {
    fn fmt(&self, f: &mut fmt::Formatter<'_>) -> fmt::Result {
        write!(f, "no message can be read at byte {}", self.place)
    }
}

impl Error for Malformed {}
