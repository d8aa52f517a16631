//! The attacker's datagrams.

use super::{Attacker, OWN_CHANNEL};
use crate::datagram::{Attack, Datagram};
use crate::radio::flip;
use crate::rows::handshake;
use ppspp::sizes::{CHUNK_SIZE, MAX_CHUNKS, REPLY_BYTES};
use ppspp::{destination, Addressing, Bin, Composer, EmptyKind, Message};

impl Attacker {
    /// A datagram of a sort. Its envelope is that of the captured one that it is made of.
    pub(super) fn forge(&mut self, attack: Attack, now: u64) -> Option<Datagram> {
        match attack {
            Attack::Garbage => self.garbage(),
            Attack::Cut => self.cut(),
            Attack::Flipped => self.flipped(),
            Attack::WrongBytes => self.wrong_bytes(),
            Attack::WrongHash => self.wrong_hash(),
            Attack::OtherPack => self.other_pack(now),
            Attack::OtherSize => self.other_size(now),
            Attack::WrongLength => self.wrong_length(),
            Attack::Replay => self.captured(),
            Attack::OtherChannel => self.other_channel(),
            Attack::Closing => self.message(Message::CLOSING),
            Attack::Opening => self.opening(),
            Attack::Answer => self.answer(),
            Attack::Choke => self.message(Message::Choke),
            Attack::FalseHave => self.false_have(),
            Attack::FalseRequest => self.false_request(),
            Attack::WrongBin => self.wrong_bin(),
        }
    }

    /// Random bytes, half of them behind a channel in use.
    fn garbage(&mut self) -> Option<Datagram> {
        let mut datagram = self.addressed()?;
        let length = self.random.place(2_100);
        let keep = 4 * self.random.place(2);
        datagram.bytes.truncate(keep);
        datagram.bytes.extend(self.random.bytes(length));
        Some(datagram)
    }

    fn cut(&mut self) -> Option<Datagram> {
        let mut datagram = self.captured()?;
        let length = self.random.place(datagram.bytes.len());
        datagram.bytes.truncate(length);
        Some(datagram)
    }

    fn flipped(&mut self) -> Option<Datagram> {
        let mut datagram = self.captured()?;
        flip(&mut self.random, &mut datagram.bytes);
        Some(datagram)
    }

    /// One byte or all bytes of the chunk are others.
    fn wrong_bytes(&mut self) -> Option<Datagram> {
        let (mut datagram, start, _) = self.chunk()?;
        self.spoil(&mut datagram.bytes[start..]);
        Some(datagram)
    }

    fn wrong_hash(&mut self) -> Option<Datagram> {
        let (mut datagram, start, hashes) = self.chunk()?;
        self.spoil(&mut datagram.bytes[start..]);
        let &place = self.random.pick(&hashes)?;
        let hash = self.random.bytes(32);
        datagram.bytes[place..place + 32].copy_from_slice(&hash);
        Some(datagram)
    }

    /// Changes one byte, or all of them.
    fn spoil(&mut self, bytes: &mut [u8]) {
        let place = self.random.place(bytes.len());
        let all = self.random.below(2) == 0;
        let chosen = if all {
            bytes
        } else {
            &mut bytes[place..=place]
        };
        for byte in chosen {
            *byte ^= self.random.between(1, 255) as u8;
        }
    }

    /// A chunk of the attacker's pack, as its own store writes it.
    fn other_pack(&mut self, now: u64) -> Option<Datagram> {
        let mut datagram = self.addressed()?;
        let chunk = self.random.below(u64::from(self.order.chunk_count())) as u32;
        let written = self.pack.write(OWN_CHANNEL, chunk, now);
        let written = written.expect("it has all chunks");
        datagram.bytes.truncate(4);
        datagram.bytes.extend_from_slice(&written[4..]);
        Some(datagram)
    }

    /// The root as a lone peak, which would prove a pack of as many chunks as the peak covers.
    fn other_size(&mut self, now: u64) -> Option<Datagram> {
        let datagram = self.addressed()?;
        let size = 1 << self.random.below(u64::from(MAX_CHUNKS.ilog2()) + 2);
        let chunk = self.random.below(size) as u32;
        let bytes = self.random.bytes(CHUNK_SIZE as usize);
        let peak = Message::Integrity {
            first: 0,
            last: size as u32 - 1,
            hash: &self.order.root,
        };
        let data = Message::Data {
            first: chunk,
            last: chunk,
            timestamp: now,
            bytes: &bytes,
        };
        Some(self.with(datagram, &[peak, data]))
    }

    /// The chunk lacks bytes, or has more than it should.
    fn wrong_length(&mut self) -> Option<Datagram> {
        let (mut datagram, start, _) = self.chunk()?;
        if self.random.below(2) == 0 {
            let length = self.random.place(datagram.bytes.len() - start);
            datagram.bytes.truncate(start + length);
        } else {
            let more = self.random.between(1, 64) as usize;
            datagram.bytes.extend(self.random.bytes(more));
        }
        Some(datagram)
    }

    /// A captured datagram in the envelope and on the channel of another.
    fn other_channel(&mut self) -> Option<Datagram> {
        let mut datagram = self.addressed()?;
        let content = self.addressed()?;
        datagram.bytes.truncate(4);
        datagram.bytes.extend_from_slice(&content.bytes[4..]);
        Some(datagram)
    }

    /// A HANDSHAKE to channel 0 from a channel that nobody has.
    fn opening(&mut self) -> Option<Datagram> {
        let mut datagram = self.captured()?;
        let (source, root) = (self.random.number() as u32 | 1, self.order.root);
        datagram.bytes = vec![0; 4];
        Some(self.with(datagram, &[handshake(source, &root)]))
    }

    /// A HANDSHAKE to a caller, from a channel that nobody has.
    fn answer(&mut self) -> Option<Datagram> {
        let call = self.random.pick(&self.calls)?;
        let first = self.pack.messages(&call.bytes).next();
        let Some(Ok((_, Message::Handshake { source, .. }))) = first else {
            return None;
        };
        let answer = Datagram {
            from: call.to,
            to: call.from,
            bytes: source.to_be_bytes().to_vec(),
            origin: call.origin,
        };
        let (source, root) = (self.random.number() as u32 | 1, self.order.root);
        Some(self.with(answer, &[handshake(source, &root)]))
    }

    fn false_have(&mut self) -> Option<Datagram> {
        let chunks = self.named();
        self.message(over(EmptyKind::Have, chunks))
    }

    fn false_request(&mut self) -> Option<Datagram> {
        let chunks = self.named();
        match self.random.below(2) {
            0 => self.message(over(EmptyKind::Request, chunks)),
            _ => self.message(over(EmptyKind::Cancel, chunks)),
        }
    }

    /// One bin of a captured datagram is another, perhaps one that such a message may not have.
    fn wrong_bin(&mut self) -> Option<Datagram> {
        let mut datagram = self.addressed()?;
        let found = self.pack.messages(&datagram.bytes).flatten();
        let places: Vec<usize> = found
            .filter_map(|(place, message)| message.range().map(|_| place + 1))
            .collect();
        let &place = self.random.pick(&places)?;
        let Bin(number) = self.bin();
        datagram.bytes[place..place + 4].copy_from_slice(&number.to_be_bytes());
        Some(datagram)
    }

    /// The first and the last of some chunks that messages can name; under bins perhaps none.
    fn named(&mut self) -> Option<(u32, u32)> {
        match self.addressing() {
            Addressing::Bins => self.bin().chunks(),
            _ => Some(self.range()),
        }
    }

    /// The empty bin, the one over everything, one in the pack or near its end, or any.
    fn bin(&mut self) -> Bin {
        let count = u64::from(self.order.chunk_count());
        match self.random.below(4) {
            0 => Bin::EMPTY,
            1 => Bin::EVERYTHING,
            2 => Bin(self.random.below(4 * count) as u32),
            _ => Bin(self.random.number() as u32),
        }
    }

    /// All chunks, or some of them, or a range past the last one.
    fn range(&mut self) -> (u32, u32) {
        let count = u64::from(self.order.chunk_count());
        let first = self.random.below(count);
        match self.random.below(3) {
            0 => (0, count as u32 - 1),
            1 => (first as u32, self.random.between(first, count - 1) as u32),
            _ => (first as u32, self.random.between(count, 2 * count) as u32),
        }
    }

    /// A message to a channel in use.
    fn message(&mut self, message: Message<'_>) -> Option<Datagram> {
        let datagram = self.addressed()?;
        Some(self.with(datagram, &[message]))
    }

    /// A datagram to the channel of another one, with other messages.
    fn with(&self, mut datagram: Datagram, messages: &[Message<'_>]) -> Datagram {
        let mut room = [0; REPLY_BYTES];
        let channel = destination(&datagram.bytes).unwrap_or(0);
        let composer = Composer::begin(&mut room, self.addressing(), channel);
        let mut composer = composer.expect("the room is large enough");
        for &message in messages {
            composer.add(message).expect("the messages fit");
        }
        datagram.bytes = composer.finish().to_vec();
        datagram
    }
}

/// A HAVE, REQUEST or CANCEL over chunks from a first to a last one, or over none.
fn over(kind: EmptyKind, chunks: Option<(u32, u32)>) -> Message<'static> {
    let Some((first, last)) = chunks else {
        return Message::Empty { kind };
    };
    match kind {
        EmptyKind::Have => Message::Have { first, last },
        EmptyKind::Request => Message::Request { first, last },
        EmptyKind::Cancel => Message::Cancel { first, last },
    }
}
