//! Datagrams of every kind, and those without HANDSHAKE and DATA.

use super::kinds::Kind;
use super::maker::Maker;
use crate::packets::*;
use crate::tree;
use crate::wire::MAX_SIZE;

impl Maker {
    /// A datagram of a kind, or of the nearest one; none if it cannot be made
    /// now.
    pub fn datagram(&mut self, kind: Kind) -> Option<(Kind, Vec<u8>)> {
        let (kind, datagram) = match self.plain_datagram(kind) {
            Some(datagram) => (kind, datagram),
            None => self.special_datagram(kind)?,
        };
        (datagram.len() <= MAX_SIZE).then_some((kind, datagram))
    }

    fn plain_datagram(&mut self, kind: Kind) -> Option<Vec<u8>> {
        let datagram = match kind {
            Kind::Keepalive => self.channel()?.0.to_be_bytes().to_vec(),
            Kind::Plain => {
                let messages = self.plain_messages();
                to(self.channel()?.0, &[&messages])
            }
            Kind::Fullest => self.fullest()?,
            Kind::Short => {
                let length = self.random.below(4);
                self.random.bytes(length)
            }
            Kind::NoRow => {
                let messages = self.any_messages();
                to(self.unknown(), &[&messages])
            }
            Kind::ToZero => {
                let messages = self.messages_without_handshake();
                to(0, &[&messages])
            }
            Kind::RangePast | Kind::NodePast => {
                let messages = self.past_messages(kind);
                to(self.channel()?.0, &[&messages])
            }
            _ => return None,
        };
        Some(datagram)
    }

    /// One with a HANDSHAKE, a layout that is refused, a chunk, or two of these.
    fn special_datagram(&mut self, kind: Kind) -> Option<(Kind, Vec<u8>)> {
        let whole = match kind {
            Kind::Cut | Kind::Glued | Kind::Changed => self.mutated(kind),
            Kind::Both(first, second) => self.pair(first, second),
            _ => self.handshake_datagram(kind),
        };
        if let Some(datagram) = whole {
            return Some((kind, datagram));
        }
        let (id, _) = self.channel()?;
        let (kind, messages) = match self.faulty_layout(kind) {
            Some(messages) => (kind, messages),
            None => self.chunk_messages(kind)?,
        };
        Some((kind, to(id, &[&messages])))
    }

    /// The ID of an open channel, and its peer's.
    pub fn channel(&mut self) -> Option<(u32, u32)> {
        let open = self.session.open_channels();
        (!open.is_empty()).then(|| self.random.one_of(&open))
    }

    /// A channel number other than 0 that is none of our IDs: one that was
    /// closed, the next one, a peer's, or any.
    pub fn unknown(&mut self) -> u32 {
        let open = self.session.open_channels();
        let next = self.session.next_id();
        loop {
            let number = match self.random.below(5) {
                0 => next,
                1 | 2 => 1 + self.random.below(next as usize) as u32,
                3 => self.channel().map_or(u32::MAX, |(_, peer)| peer),
                _ => self.random.next() as u32,
            };
            if number != 0 && open.iter().all(|&(id, _)| id != number) {
                return number;
            }
        }
    }

    /// Messages, at least one and at most six, all within the pack. No node
    /// comes twice.
    pub fn plain_messages(&mut self) -> Vec<u8> {
        let count = 1 + self.random.below(6);
        let mut nodes = Vec::new();
        let each = (0..count).map(|_| self.plain_message(&mut nodes));
        each.collect::<Vec<_>>().concat()
    }

    /// A message within the pack; a node gets into the list and is new there.
    pub fn plain_message(&mut self, nodes: &mut Vec<u64>) -> Vec<u8> {
        let (first, last) = self.range();
        match self.random.below(8) {
            0 => ack(first, last, self.random.time()),
            1 | 2 => have(first, last),
            3 => request(first, last),
            4 => cancel(first, last),
            5 => {
                let node = self.node_inside();
                if nodes.contains(&node) {
                    return CHOKE.to_vec();
                }
                nodes.push(node);
                self.hash_message(node)
            }
            6 => CHOKE.to_vec(),
            _ => UNCHOKE.to_vec(),
        }
    }

    /// An INTEGRITY for a node of the pack's tree: its hash, or another.
    pub fn hash_message(&mut self, node: u64) -> Vec<u8> {
        match self.random.below(3) {
            0 => wrong(node),
            _ => node_hash(node, &self.pack.hash(node)),
        }
    }

    /// A range within the pack.
    fn range(&mut self) -> (u32, u32) {
        let count = self.pack.count() as usize;
        let one = self.random.below(count) as u32;
        let other = self.random.below(count) as u32;
        match self.random.below(4) {
            0 => (one, one),
            1 => (0, count as u32 - 1),
            _ => (one.min(other), one.max(other)),
        }
    }

    /// A node wholly inside the pack.
    pub fn node_inside(&mut self) -> u64 {
        let count = u64::from(self.pack.count());
        let nodes = 0..2 * count - 1;
        let inside: Vec<u64> = nodes
            .filter(|&node| tree::last_chunk(node) < count)
            .collect();
        self.random.one_of(&inside)
    }

    /// A datagram of 2,048 bytes: messages, and CHOKE or UNCHOKE behind them.
    fn fullest(&mut self) -> Option<Vec<u8>> {
        let messages = self.plain_messages();
        let mut datagram = to(self.channel()?.0, &[&messages]);
        let rest = self.random.one_of(&[CHOKE, UNCHOKE])[0];
        datagram.resize(MAX_SIZE, rest);
        Some(datagram)
    }

    /// Messages of any sound datagram but one with both channel numbers 0.
    fn any_messages(&mut self) -> Vec<u8> {
        match self.random.below(5) {
            0 => closing(),
            1 => handshake(self.source(), &fixed(&self.pack.root)),
            _ => self.messages_without_handshake(),
        }
    }

    /// No message, some, or a chunk.
    pub fn messages_without_handshake(&mut self) -> Vec<u8> {
        match self.random.below(3) {
            0 => vec![],
            1 => self.plain_messages(),
            _ => match self.chunk_messages(Kind::ChunkAll) {
                Some((_, messages)) => messages,
                None => vec![],
            },
        }
    }

    /// Messages of which one has a range past the pack, before or behind others;
    /// a good chunk may come behind them.
    pub fn past_messages(&mut self, kind: Kind) -> Vec<u8> {
        let past = match kind {
            Kind::NodePast => self.node_past(),
            _ => self.range_past(),
        };
        let mut nodes = Vec::new();
        let mut messages = vec![past, self.plain_message(&mut nodes)];
        self.random.shuffle(&mut messages);
        if nodes.is_empty() && self.random.one_in(2) {
            let good = self.chunk_messages(Kind::ChunkLeast);
            messages.extend(good.map(|(_, messages)| messages));
        }
        messages.concat()
    }

    /// A HAVE, ACK, REQUEST or CANCEL that ends past the pack.
    pub fn range_past(&mut self) -> Vec<u8> {
        let count = self.pack.count();
        let any = self.random.next() as u32;
        let last = self
            .random
            .one_of(&[count, count, count + 1, any.max(count), u32::MAX]);
        let inside = self.random.below(count as usize) as u32;
        let first = self.random.one_of(&[0, inside, count, last]);
        match self.random.below(4) {
            0 => ack(first, last, self.random.time()),
            1 => have(first, last),
            2 => request(first, last),
            _ => cancel(first, last),
        }
    }

    /// An INTEGRITY that ends past the pack: the order's root for a larger pack,
    /// a filler, or a node of a larger tree.
    pub fn node_past(&mut self) -> Vec<u8> {
        let count = self.pack.count();
        let wide = count.next_power_of_two();
        let root = self.pack.root;
        match self.random.below(6) {
            0 if wide > count => integrity(0, wide - 1, &root),
            0 | 1 => integrity(0, 2 * wide - 1, &root),
            2 => integrity(count, count, &[0; 32]),
            3 => integrity(1 << 31, 1 << 31, &root),
            4 => integrity(0, u32::MAX, &root),
            _ => integrity(u32::MAX, u32::MAX, &root),
        }
    }
}
