//! Composing a datagram.

use crate::calls;
use crate::message::{EmptyKind, Message, Options};
use crate::order::Addressing;
use crate::refusal::Refusal;
use crate::sizes::ROOT_BYTES;

/// A datagram that is being composed in a room. A message is added with [`add`](Composer::add), or builder-style:
///
/// ```
/// use ppspp::{messages, Addressing, Composer, Message};
/// let mut room = [0; ppspp::sizes::REPLY_BYTES];
/// let have = Message::Have { first: 0, last: 3 };
///
/// let ranges = Addressing::Ranges;
/// let datagram = Composer::begin(&mut room, ranges, 17)?.with(have)?.unchoke()?.finish();
/// assert_eq!(datagram, [0, 0, 0, 17, 3, 0, 0, 0, 0, 0, 0, 0, 3, 11]);
/// assert_eq!(messages(ranges, datagram).next(), Some(Ok((4, have))));
///
/// let bins = Addressing::Bins;
/// let datagram = Composer::begin(&mut room, bins, 17)?.with(have)?.unchoke()?.finish();
/// assert_eq!(datagram, [0, 0, 0, 17, 3, 0, 0, 0, 3, 11]);
/// assert_eq!(messages(bins, datagram).next(), Some(Ok((4, have))));
/// # Ok::<(), ppspp::Refusal>(())
/// ```
#[derive(Debug)]
pub struct Composer<'a> {
    room: &'a mut [u8],
    /// The number of the addressing.
    method: u32,
    len: usize,
}

impl<'a> Composer<'a> {
    /// Begins a datagram in a room of at least 2,048 bytes, under an addressing; its destination is the peer's channel.
    pub fn begin(
        room: &'a mut [u8],
        addressing: Addressing,
        destination: u32,
    ) -> Result<Composer<'a>, Refusal> {
        Composer::begin_under(room, addressing.number(), destination)
    }

    /// The same under the addressing of a number. If it is none's, no message can be added: that is
    /// [`Refusal::Length`].
    pub fn begin_under(
        room: &'a mut [u8],
        method: u32,
        destination: u32,
    ) -> Result<Composer<'a>, Refusal> {
        let (number, len) = calls::begin(room, destination);
        Refusal::check(number)?;
        Ok(Composer { room, method, len })
    }

    /// Adds a message. After a refusal the datagram is as it was, and others may be added.
    pub fn add(&mut self, message: Message<'_>) -> Result<(), Refusal> {
        let (number, len) = calls::add(self.room, self.method, self.len, message.numbers());
        Refusal::check(number)?;
        self.len = len;
        Ok(())
    }

    /// The datagram so far.
    pub fn datagram(&self) -> &[u8] {
        &self.room[..self.len]
    }

    /// The datagram, for as long as the room is lent.
    pub fn finish(self) -> &'a [u8] {
        &self.room[..self.len]
    }

    /// With one more message.
    pub fn with(mut self, message: Message<'_>) -> Result<Self, Refusal> {
        self.add(message)?;
        Ok(self)
    }

    /// With a HANDSHAKE of the profile's options around a root.
    pub fn handshake(self, source: u32, root: &[u8; ROOT_BYTES]) -> Result<Self, Refusal> {
        let options = Options::Fixed { root };
        self.with(Message::Handshake { source, options })
    }

    /// With a HANDSHAKE that closes the channel.
    pub fn close(self) -> Result<Self, Refusal> {
        self.with(Message::CLOSING)
    }

    /// With DATA of a chunk; nothing can be added behind it.
    pub fn data(self, chunk: u32, timestamp: u64, bytes: &[u8]) -> Result<Self, Refusal> {
        self.with(Message::Data {
            first: chunk,
            last: chunk,
            timestamp,
            bytes,
        })
    }

    /// With an ACK of a range.
    pub fn ack(self, first: u32, last: u32, delay: u64) -> Result<Self, Refusal> {
        self.with(Message::Ack { first, last, delay })
    }

    /// With a HAVE of a range.
    pub fn have(self, first: u32, last: u32) -> Result<Self, Refusal> {
        self.with(Message::Have { first, last })
    }

    /// With an INTEGRITY of the node over a range.
    pub fn integrity(
        self,
        first: u32,
        last: u32,
        hash: &[u8; ROOT_BYTES],
    ) -> Result<Self, Refusal> {
        self.with(Message::Integrity { first, last, hash })
    }

    /// With a REQUEST of a range.
    pub fn request(self, first: u32, last: u32) -> Result<Self, Refusal> {
        self.with(Message::Request { first, last })
    }

    /// With a CANCEL of a range.
    pub fn cancel(self, first: u32, last: u32) -> Result<Self, Refusal> {
        self.with(Message::Cancel { first, last })
    }

    /// With a CHOKE.
    pub fn choke(self) -> Result<Self, Refusal> {
        self.with(Message::Choke)
    }

    /// With an UNCHOKE.
    pub fn unchoke(self) -> Result<Self, Refusal> {
        self.with(Message::Unchoke)
    }

    /// With a HAVE, REQUEST or CANCEL over no chunk, which only bins can name.
    pub fn empty(self, kind: EmptyKind) -> Result<Self, Refusal> {
        self.with(Message::Empty { kind })
    }
}
