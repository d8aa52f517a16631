//! Messages whose layout is refused with 2, but for HANDSHAKEs.

use super::kinds::Kind;
use super::maker::Maker;
use crate::packets::*;
use crate::tree;

impl Maker {
    /// Messages of a kind refused with 2: some good ones, the one at fault, and
    /// maybe more behind it. None for other kinds.
    pub fn faulty_layout(&mut self, kind: Kind) -> Option<Vec<u8>> {
        let fault = self.fault_in_layout(kind)?;
        let mut messages = Vec::new();
        if self.random.one_in(2) {
            let mut nodes = Vec::new();
            for _ in 0..1 + self.random.below(4) {
                let message = self.plain_message(&mut nodes);
                // An INTEGRITY could be the one at fault, twice.
                if message[0] != 4 {
                    messages.extend(message);
                }
            }
        }
        messages.extend(fault);
        // Whatever is cut must end there.
        if kind != Kind::CutMessage && self.random.one_in(2) {
            messages.extend(self.messages_without_handshake());
        }
        Some(messages)
    }

    /// Any of them, where nothing behind it makes it good.
    pub fn any_fault_in_layout(&mut self) -> Vec<u8> {
        let kind = self.random.one_of(&[
            Kind::RefusedType,
            Kind::FirstAboveLast,
            Kind::NoNode,
            Kind::NodeTwice,
            Kind::DataRange,
        ]);
        self.fault_in_layout(kind)
            .unwrap_or_else(|| REFUSED.to_vec())
    }

    fn fault_in_layout(&mut self, kind: Kind) -> Option<Vec<u8>> {
        match kind {
            Kind::RefusedType => Some(vec![self.refused_type()]),
            Kind::CutMessage => Some(self.cut_message()),
            Kind::FirstAboveLast => {
                let (first, last) = self.falling_range();
                Some(self.with_range(first, last))
            }
            Kind::NoNode => {
                let (first, last) = self.no_node();
                Some(integrity(first, last, &self.pack.root))
            }
            Kind::NodeTwice => Some(self.node_twice()),
            Kind::DataRange => {
                let (first, last) = self.random.one_of(&[(0, 1), (0, 6), (2, 3), (0, u32::MAX)]);
                let bytes = self.pack.chunk(0).to_vec();
                Some(data(first, last, self.random.time(), &bytes))
            }
            _ => None,
        }
    }

    fn refused_type(&mut self) -> u8 {
        match self.random.below(3) {
            0 => self.random.one_of(&[5, 6, 7]),
            1 => self.random.one_of(&[12, 12, 13, 128, 254, 255]),
            _ => 12 + self.random.below(244) as u8,
        }
    }

    /// A message without its last bytes; of DATA, some of the bytes before the
    /// chunk are missing.
    fn cut_message(&mut self) -> Vec<u8> {
        let time = self.random.time();
        let mut message = match self.random.below(7) {
            0 => ack(0, 0, time),
            1 => have(0, 0),
            2 => integrity(0, 0, &self.pack.root),
            3 => request(0, 0),
            4 => cancel(0, 0),
            5 => data(0, 0, time, &[]),
            _ => handshake(self.source(), &[]),
        };
        let cut = match self.random.below(2) {
            0 => 1,
            _ => 1 + self.random.below(message.len() - 1),
        };
        message.truncate(message.len() - cut);
        message
    }

    /// A range with its first chunk above its last.
    fn falling_range(&mut self) -> (u32, u32) {
        let any = self.random.below(32) as u32;
        self.random.one_of(&[
            (5, 4),
            (1, 0),
            (any + 1, any),
            (u32::MAX, 0),
            (u32::MAX, any),
        ])
    }

    /// A message of any type that has a range, and this one.
    fn with_range(&mut self, first: u32, last: u32) -> Vec<u8> {
        let time = self.random.time();
        match self.random.below(6) {
            0 => ack(first, last, time),
            1 => have(first, last),
            2 => integrity(first, last, &self.pack.root),
            3 => request(first, last),
            4 => cancel(first, last),
            _ => data(first, last, time, &[1; 64]),
        }
    }

    /// A range, first not above last, that is no node's.
    fn no_node(&mut self) -> (u32, u32) {
        loop {
            let one = self.random.below(16) as u32;
            let other = self.random.below(16) as u32;
            let range = (one.min(other), one.max(other));
            if tree::node_of_range(range.0, range.1).is_none() {
                return self
                    .random
                    .one_of(&[range, range, (1, 2), (0, 2), (2, 5), (1, u32::MAX)]);
            }
        }
    }

    /// Two INTEGRITY for one node, with messages in between.
    fn node_twice(&mut self) -> Vec<u8> {
        let node = self.node_inside();
        let first = self.hash_message(node);
        let second = self.hash_message(node);
        let between = self.random.one_of(&[&[][..], &CHOKE, &[11, 10, 11]]);
        [&first, between, &second].concat()
    }
}
