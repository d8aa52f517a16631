//! The record of a run: each datagram that is taken in is counted here, and its effect compared with the pack.

use crate::checks::{Pack, Snapshot};
use crate::datagram::Origin;
use crate::tally::Tally;
use ppspp::{messages, Addressing, Message, Refusal, Refused, Store};

/// What taking in a datagram gave.
#[derive(Debug)]
pub struct Answer {
    /// The reply, or why it was refused.
    pub reply: Result<Vec<u8>, Refusal>,
    /// The chunk that is held since then.
    pub stored: Option<u32>,
}

/// How many chunks a van held from a time on.
pub type History = Vec<(u64, u32)>;

/// All that is kept of a run.
#[derive(Debug)]
pub struct Record {
    /// The pack as it is.
    pub pack: Pack,
    /// What is counted.
    pub tally: Tally,
    /// What each node held over time.
    pub histories: Vec<History>,
    /// A number over every datagram that was taken in, where, when, and its answer (FNV-1a).
    pub trace: u64,
}

impl Record {
    /// An empty record for so many nodes.
    pub fn new(pack: Pack, nodes: usize) -> Record {
        Record {
            pack,
            tally: Tally::default(),
            histories: vec![vec![(0, 0)]; nodes],
            trace: 0xcbf2_9ce4_8422_2325,
        }
    }

    /// Notes how many chunks a node holds now.
    pub fn note_held(&mut self, now: u64, node: usize, held: u32) {
        self.histories[node].push((now, held));
    }

    /// Has a store take in a datagram; whatever is held since then, and what the datagram names, is compared.
    pub fn take(
        &mut self,
        store: &mut Store,
        (now, id): (u64, u32),
        datagram: &[u8],
        origin: Origin,
    ) -> Answer {
        let before = Snapshot::of(store);
        let taken = store.take(now, id, datagram).map(<[u8]>::to_vec);
        let reply = taken.map_err(Refused::refusal);
        let number = reply.as_ref().err().map_or(0, |refusal| refusal.number());
        self.tally.taken_mut(origin).answers[number as usize] += 1;
        self.extend_trace(now, number, datagram);
        if reply.is_err() && !before.stands(store) {
            self.tally.changed_by_refusal += 1;
        }
        self.tally.vanished += before.vanished(store);
        let new = before.new_chunks(store);
        for &chunk in &new {
            self.note_stored(store, chunk, origin);
        }
        match chunk_of(store.addressing(), datagram) {
            Some(chunk) if reply.is_ok() && !new.contains(&chunk) => self.compare(store, chunk),
            _ => 0,
        };
        let stored = new.first().copied();
        Answer { reply, stored }
    }

    /// Counts the ACK in a reply that is sent, and the chunks that it names.
    pub fn note_ack(&mut self, addressing: Addressing, reply: &[u8]) {
        for (_, message) in messages(addressing, reply).flatten() {
            if let Message::Ack { first, last, .. } = message {
                self.tally.acks += 1;
                self.tally.acknowledged += u64::from(last - first) + 1;
            }
        }
    }

    /// Compares all that a store holds.
    pub fn compare_all(&mut self, store: &Store) {
        for chunk in crate::bits::ones(store.view().map) {
            self.compare(store, chunk);
        }
    }

    /// Compares a chunk in a store's room, and gives how many of its bytes are bad.
    fn compare(&mut self, store: &Store, chunk: u32) -> u64 {
        let bad = self.pack.bad_bytes_of_chunk(store, chunk);
        self.tally.compared += 1;
        self.tally.bad_bytes += bad;
        bad
    }

    /// Counts a stored chunk by its origin and by its bytes.
    fn note_stored(&mut self, store: &Store, chunk: u32, origin: Origin) {
        let bad = self.compare(store, chunk);
        let taken = self.tally.taken_mut(origin);
        if bad == 0 {
            taken.stored += 1;
        } else {
            taken.stored_bad += 1;
        }
    }

    /// Brings a datagram and its answer into the trace's number.
    fn extend_trace(&mut self, now: u64, number: u32, datagram: &[u8]) {
        let head = now.to_be_bytes().into_iter().chain(number.to_be_bytes());
        for byte in head.chain(datagram.iter().copied()) {
            self.trace = (self.trace ^ u64::from(byte)).wrapping_mul(0x0100_0000_01b3);
        }
    }
}

/// The chunk that a datagram's DATA names.
pub fn chunk_of(addressing: Addressing, datagram: &[u8]) -> Option<u32> {
    messages(addressing, datagram).find_map(|found| match found {
        Ok((_, Message::Data { first, .. })) => Some(first),
        _ => None,
    })
}
