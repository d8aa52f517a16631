//! An attacker, who hears every datagram and sends to every node, under any address.

mod forging;

use crate::datagram::{Attack, Datagram, Origin};
use crate::naming::name_bytes;
use crate::random::Random;
use crate::record::chunk_of;
use crate::timing::OVERHEARD;
use ppspp::{destination, Addressing, Message, Order, Store};

/// The attacker.
#[derive(Debug)]
pub struct Attacker {
    random: Random,
    order: Order,
    nodes: usize,
    /// Another pack of the same length, with a channel to write it on.
    pack: Store,
    /// Captured datagrams with a chunk.
    chunks: Vec<Datagram>,
    /// Captured datagrams to a channel, without a chunk.
    others: Vec<Datagram>,
    /// Captured HANDSHAKEs to channel 0.
    calls: Vec<Datagram>,
}

/// The channel of the attacker's own store.
const OWN_CHANNEL: u32 = 1;

impl Attacker {
    /// An attacker who knows the order and the addresses, and has a pack of its own.
    pub fn new(order: Order, nodes: usize, mut random: Random) -> Attacker {
        let content = random.bytes(order.length as usize);
        let mut pack = Store::build(order, &content).expect("the order's length");
        let root = pack.order().expect("it was built").root;
        let composer = pack.compose(0).and_then(|c| c.handshake(7, &root));
        let handshake = composer.expect("a HANDSHAKE fits").finish().to_vec();
        pack.take(0, OWN_CHANNEL, &handshake)
            .expect("its own order");
        Attacker {
            random,
            order,
            nodes,
            pack,
            chunks: Vec::new(),
            others: Vec::new(),
            calls: Vec::new(),
        }
    }

    /// Hears a datagram, and keeps some of them.
    pub fn overhear(&mut self, datagram: &Datagram) {
        let (one_in, most) = OVERHEARD;
        if self.random.below(one_in) != 0 {
            return;
        }
        let kept = match chunk_of(self.addressing(), &datagram.bytes) {
            Some(_) => &mut self.chunks,
            None if destination(&datagram.bytes) == Some(0) => &mut self.calls,
            None => &mut self.others,
        };
        if kept.len() < most {
            kept.push(datagram.clone());
        } else {
            kept[self.random.place(most)] = datagram.clone();
        }
    }

    /// A datagram of a random sort; none as long as too little was heard for it.
    pub fn attack(&mut self, now: u64) -> Option<Datagram> {
        let attack = *self.random.pick(Attack::under(self.addressing()))?;
        let mut datagram = self.forge(attack, now)?;
        datagram.origin = Origin::Attacker(attack);
        // Half of them come under an address that is not the peer's.
        if self.random.below(2) == 0 {
            datagram.from = self.random.place(self.nodes);
        }
        Some(datagram)
    }

    /// How messages name chunks, by the order.
    fn addressing(&self) -> Addressing {
        self.pack.addressing()
    }

    /// Any captured datagram.
    fn captured(&mut self) -> Option<Datagram> {
        let sort = [&self.chunks, &self.others, &self.calls][self.random.place(3)];
        self.random.pick(sort).cloned()
    }

    /// A captured datagram to a channel.
    fn addressed(&mut self) -> Option<Datagram> {
        let sort = [&self.chunks, &self.others][self.random.place(2)];
        self.random.pick(sort).cloned()
    }

    /// A captured datagram with a chunk, the place of the chunk's bytes, and those of the hashes.
    fn chunk(&mut self) -> Option<(Datagram, usize, Vec<usize>)> {
        let datagram = self.random.pick(&self.chunks)?.clone();
        let (mut chunk, mut hashes) = (None, Vec::new());
        for (place, message) in self.pack.messages(&datagram.bytes).flatten() {
            // The type and what names chunks stand before the hash, and before the timestamp and the chunk.
            let behind = place + 1 + name_bytes(self.addressing());
            match message {
                Message::Integrity { .. } => hashes.push(behind),
                Message::Data { .. } => chunk = Some(behind + 8),
                _ => {}
            }
        }
        Some((datagram, chunk?, hashes))
    }
}
