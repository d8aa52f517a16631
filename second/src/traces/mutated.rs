//! Datagrams cut, glued and changed anywhere.

use super::kinds::Kind;
use super::maker::Maker;
use crate::wire::MIN_SIZE;

impl Maker {
    /// A good datagram to which something was done; none if there is no good one
    /// now.
    pub fn mutated(&mut self, kind: Kind) -> Option<Vec<u8>> {
        let mut datagram = self.good_datagram()?;
        match kind {
            Kind::Cut => datagram.truncate(self.random.below(datagram.len() + 1)),
            Kind::Glued => {
                let other = self.good_datagram()?;
                datagram.extend(&other[MIN_SIZE..]);
            }
            _ => self.change_bytes(&mut datagram),
        }
        Some(datagram)
    }

    fn good_datagram(&mut self) -> Option<Vec<u8>> {
        let kind = self.random.one_of(&[
            Kind::Opening,
            Kind::Again,
            Kind::Plain,
            Kind::ChunkLeast,
            Kind::ChunkAll,
            Kind::ChunkMore,
            Kind::ChunkHeld,
        ]);
        self.datagram(kind).map(|(_, datagram)| datagram)
    }

    /// Changes, inserts or removes up to three bytes, mostly near the front.
    fn change_bytes(&mut self, datagram: &mut Vec<u8>) {
        for _ in 0..1 + self.random.below(3) {
            let near = datagram.len().min(60);
            let bound = self.random.one_of(&[near, near, datagram.len()]);
            if bound == 0 {
                return;
            }
            let place = self.random.below(bound);
            let any = self.random.next() as u8;
            let byte = self.random.one_of(&[0, 1, 4, 10, 255, any]);
            match self.random.below(4) {
                0 => datagram.insert(place, byte),
                1 => drop(datagram.remove(place)),
                2 => datagram[place] ^= 1 << self.random.below(8),
                _ => datagram[place] = byte,
            }
        }
    }
}
