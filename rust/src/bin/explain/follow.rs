//! The store with which this program follows an input.

use crate::acknowledged::Acknowledged;
use crate::effects::{self, Taken};
use crate::frame::Frame;
use crate::known::{Known, Told};
use crate::reason::Case;
use ppspp::{destination, Channel, Node, Order, Refused, Store};
use std::collections::BTreeMap;

/// A store, and the ID for its next channel.
pub struct Follower {
    order: Order,
    store: Store,
    /// Passed with each datagram; rises by one with each channel opened.
    id: u32,
    /// The channels that were closed, each with the line that did it.
    closed: BTreeMap<u32, usize>,
}

/// What the library answers to a datagram.
pub struct Turn {
    /// What the store knew before it.
    known: Known,
    /// The number.
    pub number: u8,
    /// The node that it names.
    node: Option<Node>,
    /// The reply.
    pub reply: Vec<u8>,
    /// The channel that it was for.
    pub channel: Option<Channel>,
    /// What it did, if it was taken.
    pub effects: Vec<String>,
    /// What the ACK in the reply names.
    pub acknowledged: Option<Acknowledged>,
}

impl Turn {
    /// The node that the library names with a number; none where that is not its own.
    pub fn node(&self, number: u8) -> Option<Node> {
        self.node.filter(|_| number == self.number)
    }
}

impl Follower {
    /// One with an empty store.
    pub fn new(order: Order, store: Store) -> Follower {
        Follower {
            order,
            store,
            id: 1,
            closed: BTreeMap::new(),
        }
    }

    /// Takes in the datagram of a line.
    pub fn take(&mut self, line: usize, frame: &Frame) -> Turn {
        let datagram = &frame.datagram[..];
        let known = Known::of(&self.store, self.order);
        let to = destination(datagram);
        let channel = to.and_then(|id| known.channel(id));
        let told = channel.map(|channel| Told::of(&self.store, channel.row, known.n));
        let answer = self.store.take(frame.clock, self.id, datagram);
        let answer = answer.map(<[u8]>::to_vec);
        let refused = answer.as_ref().err().copied();
        // At most 14.
        let number = refused.map_or(0, |refused| refused.refusal().number() as u8);
        let reply = answer.unwrap_or_default();
        let acknowledged = Acknowledged::by(known.naming(), &reply);
        let mut effects = Vec::new();
        if number == 0 {
            let taken = Taken {
                datagram,
                known: &known,
                told: told.as_ref(),
                acknowledged,
            };
            effects = effects::of(&taken, &self.store);
            self.count_channels(line, to, channel);
        }
        Turn {
            known,
            number,
            node: refused.and_then(Refused::node),
            reply,
            channel,
            effects,
            acknowledged,
        }
    }

    /// Takes note of a channel that a datagram opened or closed.
    fn count_channels(&mut self, line: usize, to: Option<u32>, before: Option<Channel>) {
        // A datagram to channel 0 is taken only where it opens a channel.
        if to == Some(0) {
            self.id = self.id.wrapping_add(1);
        }
        let gone = before.filter(|channel| self.store.channel(channel.id).is_none());
        self.closed.extend(gone.map(|channel| (channel.id, line)));
    }

    /// Why a datagram got a number, as far as it can be told.
    pub fn reason(&self, turn: &Turn, frame: &Frame, number: u8) -> Option<String> {
        let case = Case {
            datagram: &frame.datagram,
            known: &turn.known,
            node: turn.node(number),
            closed: &self.closed,
        };
        case.reason(number)
    }

    /// The store.
    pub fn store(&self) -> &Store {
        &self.store
    }
}
