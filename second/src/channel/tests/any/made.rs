//! Datagrams to a store, sound and not.

use super::*;

impl Scene {
    pub fn datagram(&mut self, state: &State) -> Vec<u8> {
        let destination = match self.random.below(8) {
            0 => self.id(),
            1 => state.rows[self.random.below(16)].id,
            _ => self.id_in_use(state),
        };
        match self.random.below(8) {
            0 => {
                let at = self.random.below(self.any.len());
                let mut datagram = self.any[at].clone();
                if let Some(bytes) = datagram.first_chunk_mut() {
                    *bytes = destination.to_be_bytes();
                }
                datagram
            }
            1 | 2 => self.handshake(state, destination),
            3 => {
                let messages = self.messages();
                to(destination, &[&messages])
            }
            _ => self.with_chunk(destination),
        }
    }

    /// The ID of a row in use, or 0 if there is none.
    fn id_in_use(&mut self, state: &State) -> u32 {
        let in_use = |row: &&Row| row.phase != Phase::Free;
        let ids: Vec<u32> = state.rows.iter().filter(in_use).map(|row| row.id).collect();
        match ids.len() {
            0 => 0,
            len => ids[self.random.below(len)],
        }
    }

    fn handshake(&mut self, state: &State, destination: u32) -> Vec<u8> {
        let destination = if self.chance(3) { 0 } else { destination };
        let source = match self.random.below(3) {
            0 => 0,
            1 => self.id(),
            _ => state.rows.map(|row| row.peer)[self.random.below(16)],
        };
        let options = match self.random.below(8) {
            0 => vec![0, 1, 255],
            1 => either::fixed(state.addressing, &[1; 32]),
            2 if self.chance(2) => vec![255],
            2 => either::fixed(other(state.addressing), &state.root),
            3 => vec![255],
            _ if source == 0 => vec![255],
            _ => either::fixed(state.addressing, &state.root),
        };
        to(destination, &[&handshake(source, &options)])
    }

    /// Up to three messages that are neither HANDSHAKE nor DATA.
    fn messages(&mut self) -> Vec<u8> {
        let mut messages = Vec::new();
        for _ in 0..self.random.below(4) {
            messages.extend(match self.addressing {
                Addressing::Bins => self.message_over_bin(),
                Addressing::Ranges => self.message_over_range(),
            });
        }
        messages
    }

    fn message_over_range(&mut self) -> Vec<u8> {
        let (a, b) = (self.chunk(), self.chunk());
        let (first, last) = (a.min(b), a.max(b));
        match self.random.below(7) {
            0 => have(first, last),
            1 => ack(first, last, self.random.time()),
            2 | 3 => request(first, last),
            4 => cancel(first, last),
            5 => CHOKE.to_vec(),
            _ => UNCHOKE.to_vec(),
        }
    }

    fn message_over_bin(&mut self) -> Vec<u8> {
        let bin = self.bin();
        match self.random.below(7) {
            0 => bins::have(bin),
            1 => bins::ack(bin, self.random.time()),
            2 | 3 => bins::request(bin),
            4 => bins::cancel(bin),
            5 => CHOKE.to_vec(),
            _ => UNCHOKE.to_vec(),
        }
    }

    /// A bin over a chunk of the pack, inside it or past its end in part; at times
    /// any, the empty one and everything with them.
    fn bin(&mut self) -> u32 {
        match self.random.below(16) {
            0 => self.random.bin(),
            1 => bins::EVERYTHING,
            2 => bins::EMPTY,
            _ => {
                let height = match self.random.below(4) {
                    0 => self.random.below(31),
                    _ => self.random.below(7),
                };
                tree::over(self.chunk() % (1 << 31), height as u32) as u32
            }
        }
    }

    /// DATA with the hashes of its sending order, some left out or wrong.
    fn with_chunk(&mut self, destination: u32) -> Vec<u8> {
        let count = tree::chunk_count(self.pack.length());
        let chunk = self.chunk();
        let mut nodes = tree::sending_order(count, chunk.min(count - 1));
        match self.random.below(6) {
            0 => {
                nodes.remove(self.random.below(nodes.len()));
            }
            1 => nodes.retain(|_| self.random.below(4) != 0),
            _ => {}
        }
        if self.chance(4) {
            nodes.reverse();
        }
        let mut messages = self.messages();
        let faulty = self.chance(4);
        for node in nodes {
            let mut hash = self.hashes[node as usize];
            if faulty && self.chance(4) {
                hash[self.random.below(32)] ^= 1;
            }
            messages.extend(either::integrity(self.addressing, node, &hash));
        }
        let mut bytes = self.pack.chunk(chunk.min(count - 1)).to_vec();
        match self.random.below(16) {
            0 => bytes[0] ^= 1,
            1 => bytes.truncate(self.random.below(1024)),
            _ => {}
        }
        let leaf = tree::leaf(chunk % (1 << 31));
        let data = either::data(self.addressing, leaf, self.random.time(), &bytes);
        to(destination, &[&messages, &data])
    }
}

/// The other method.
fn other(addressing: Addressing) -> Addressing {
    match addressing {
        Addressing::Bins => Addressing::Ranges,
        Addressing::Ranges => Addressing::Bins,
    }
}
