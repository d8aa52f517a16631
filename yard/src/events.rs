//! What is to happen, in the order of time.

use crate::datagram::Datagram;
use std::cmp::{Ordering, Reverse};
use std::collections::BinaryHeap;

/// Something that happens. Numbers are those of nodes.
#[derive(Debug)]
pub enum Event {
    /// A datagram arrives.
    Arrive(Datagram),
    /// A node looks after its channels and requests.
    Tick(usize),
    /// A node's transmitter is free for a chunk.
    Serve(usize),
    /// A van comes back.
    Return(usize),
    /// The attacker sends.
    Attack,
    /// All that is held is compared with the pack.
    Compare,
}

/// The events to come.
#[derive(Debug, Default)]
pub struct Events {
    queue: BinaryHeap<Reverse<Planned>>,
    planned: u64,
}

impl Events {
    /// Plans an event. Events of one time happen in the order in which they were planned.
    pub fn plan(&mut self, at: u64, event: Event) {
        let number = self.planned;
        self.planned += 1;
        self.queue.push(Reverse(Planned { at, number, event }));
    }

    /// Takes out the next event, with its time.
    pub fn pop(&mut self) -> Option<(u64, Event)> {
        let Reverse(Planned { at, event, .. }) = self.queue.pop()?;
        Some((at, event))
    }

    /// How many datagrams are under way.
    pub fn under_way(&self) -> u64 {
        let events = self.queue.iter().map(|Reverse(planned)| &planned.event);
        events.filter(|e| matches!(e, Event::Arrive(_))).count() as u64
    }
}

#[derive(Debug)]
struct Planned {
    at: u64,
    number: u64,
    event: Event,
}

impl Ord for Planned {
    fn cmp(&self, other: &Self) -> Ordering {
        (self.at, self.number).cmp(&(other.at, other.number))
    }
}

impl PartialOrd for Planned {
    fn partial_cmp(&self, other: &Self) -> Option<Ordering> {
        Some(self.cmp(other))
    }
}

impl PartialEq for Planned {
    fn eq(&self, other: &Self) -> bool {
        self.cmp(other) == Ordering::Equal
    }
}

impl Eq for Planned {}
