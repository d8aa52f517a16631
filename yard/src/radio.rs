//! The radio: it loses, doubles, delays and damages datagrams.

use crate::datagram::{Datagram, Origin};
use crate::random::{Random, Rate};
use crate::timing::{BYTE_TIME, FLIGHT, LATE};

/// How often the radio does what.
#[derive(Clone, Copy, Debug, PartialEq, Eq)]
pub struct Faults {
    /// A datagram is lost.
    pub loss: Rate,
    /// A datagram that is not lost comes twice.
    pub duplicate: Rate,
    /// A copy comes late, so that others overtake it.
    pub reorder: Rate,
    /// A copy is cut short.
    pub truncate: Rate,
    /// A copy has flipped bits.
    pub flip: Rate,
}

impl Faults {
    /// A radio without faults.
    pub const NONE: Faults = Faults {
        loss: Rate(0),
        duplicate: Rate(0),
        reorder: Rate(0),
        truncate: Rate(0),
        flip: Rate(0),
    };
}

/// What the radio did.
#[derive(Clone, Copy, Debug, Default, PartialEq, Eq)]
pub struct RadioCounts {
    /// Datagrams that were sent.
    pub sent: u64,
    /// Bytes of them.
    pub bytes: u64,
    /// Datagrams that were lost.
    pub lost: u64,
    /// Datagrams that were doubled.
    pub duplicated: u64,
    /// Copies that were late.
    pub reordered: u64,
    /// Copies that were cut short.
    pub truncated: u64,
    /// Copies with flipped bits.
    pub flipped: u64,
}

/// The radio between all nodes.
#[derive(Debug)]
pub struct Radio {
    faults: Faults,
    random: Random,
    /// When each node's transmitter is free.
    free: Vec<u64>,
    /// What it did.
    pub counts: RadioCounts,
}

impl Radio {
    /// A radio for so many nodes.
    pub fn new(faults: Faults, random: Random, nodes: usize) -> Radio {
        Radio {
            faults,
            random,
            free: vec![0; nodes],
            counts: RadioCounts::default(),
        }
    }

    /// When a node's transmitter is free.
    pub fn free_at(&self, node: usize) -> u64 {
        self.free[node]
    }

    /// Sends a datagram: the copies that arrive, each with its time.
    ///
    /// A node's datagrams leave one behind the other. The attacker's have transmitters enough.
    pub fn send(&mut self, now: u64, datagram: Datagram) -> Vec<(u64, Datagram)> {
        let length = datagram.bytes.len() as u64;
        self.counts.sent += 1;
        self.counts.bytes += length;
        let mut leaves = now + BYTE_TIME * length;
        if let Origin::Honest = datagram.origin {
            let free = &mut self.free[datagram.from];
            leaves = (*free).max(now) + BYTE_TIME * length;
            *free = leaves;
        }
        if self.random.happens(self.faults.loss) {
            self.counts.lost += 1;
            return Vec::new();
        }
        let mut copies = Vec::new();
        if self.random.happens(self.faults.duplicate) {
            self.counts.duplicated += 1;
            copies.push(self.copy(leaves, datagram.clone()));
        }
        copies.push(self.copy(leaves, datagram));
        copies
    }

    /// A copy as it arrives.
    fn copy(&mut self, leaves: u64, mut datagram: Datagram) -> (u64, Datagram) {
        let mut arrives = leaves + self.random.between(FLIGHT.0, FLIGHT.1);
        if self.random.happens(self.faults.reorder) {
            self.counts.reordered += 1;
            arrives += self.random.between(LATE.0, LATE.1);
        }
        let cut = !datagram.bytes.is_empty() && self.random.happens(self.faults.truncate);
        if cut {
            self.counts.truncated += 1;
            let length = self.random.place(datagram.bytes.len());
            datagram.bytes.truncate(length);
        }
        let flipped = !datagram.bytes.is_empty() && self.random.happens(self.faults.flip);
        if flipped {
            self.counts.flipped += 1;
            flip(&mut self.random, &mut datagram.bytes);
        }
        if (cut || flipped) && datagram.origin == Origin::Honest {
            datagram.origin = Origin::Damaged;
        }
        (arrives, datagram)
    }
}

/// Flips one to three different bits of at least one byte.
pub fn flip(random: &mut Random, bytes: &mut [u8]) {
    let mut flipped = Vec::new();
    for _ in 0..random.between(1, 3) {
        let bit = random.place(8 * bytes.len());
        if !flipped.contains(&bit) {
            bytes[bit / 8] ^= 1 << (bit % 8);
            flipped.push(bit);
        }
    }
}
