//! HANDSHAKE, sound and at fault.

use super::Cases;
use crate::random::Random;
use crate::wire::Addressing;

/// A HANDSHAKE.
pub fn handshake(source: u32, options: &[u8]) -> Vec<u8> {
    let mut handshake = vec![0];
    handshake.extend(source.to_be_bytes());
    handshake.extend(options);
    handshake
}

impl Cases {
    /// A HANDSHAKE alone: 3 of 8 have the fixed options, 2 close, 1 has End alone
    /// and 2 have other options.
    pub fn sound_handshake(&mut self) -> Vec<Vec<u8>> {
        let source = 1 + self.random.number() % u32::MAX;
        let destination = if self.random.below(2) == 0 {
            0
        } else {
            self.random.number()
        };
        let (destination, source, options) = match self.random.below(8) {
            0..3 => (destination, source, self.fixed_options()),
            3 | 4 => (1 + self.random.number() % u32::MAX, 0, vec![255]),
            5 => (destination, source, vec![255]),
            _ => (destination, source, self.random.sound_options()),
        };
        vec![
            destination.to_be_bytes().to_vec(),
            handshake(source, &options),
        ]
    }

    /// A HANDSHAKE with both channel numbers 0, or source 0 and other options, or
    /// faults in its options, or two of these.
    pub fn handshake_at_fault(&mut self) -> Vec<u8> {
        let destination = [0, self.random.number()][self.random.below(2)];
        let source = [0, self.random.number()][self.random.below(2)];
        let options = match self.random.below(4) {
            0 => vec![255],
            1 => self.fixed_options(),
            2 => self.random.sound_options(),
            _ => self.random.faulty_options(),
        };
        let mut datagram = destination.to_be_bytes().to_vec();
        datagram.extend(handshake(source, &options));
        datagram
    }

    /// The fixed options around a random swarm ID; in 1 of 16 cases those of the
    /// other method, which are others here.
    pub fn fixed_options(&mut self) -> Vec<u8> {
        let id = self.random.bytes(32);
        let bins = (self.addressing == Addressing::Bins) != (id[0] < 16);
        let method = if bins { 0 } else { 2 };
        let mut options = vec![0, 1, 1, 1, 2, 0, 32];
        options.extend(id);
        options.extend([3, 1, 4, 2, 6, method, 9, 0, 0, 4, 0, 255]);
        options
    }
}

impl Random {
    /// Options of rising codes, any of them, and End.
    pub fn sound_options(&mut self) -> Vec<u8> {
        let mut options = Vec::new();
        for code in 0..10 {
            if self.below(2) == 0 {
                options.extend(self.option(code));
            }
        }
        options.push(255);
        options
    }

    /// An option, its value random.
    fn option(&mut self, code: u8) -> Vec<u8> {
        let mut option = vec![code];
        match code {
            2 => {
                let len = [0, 1, 20, 31, 32, 33, 256, 288][self.below(8)];
                option.extend((len as u16).to_be_bytes());
                option.extend(self.bytes(len));
            }
            7 | 9 => option.extend(self.bytes(4)),
            8 => {
                let len = [0, 1, 2, 32, 255][self.below(5)];
                option.push(len as u8);
                option.extend(self.bytes(len));
            }
            _ => option.push(self.next() as u8),
        }
        option
    }

    /// Options with a fault: two swapped, one twice, an unknown one, no End, or
    /// cut short.
    pub fn faulty_options(&mut self) -> Vec<u8> {
        let mut list: Vec<_> = (0..10).map(|code| self.option(code)).collect();
        let at = self.below(9);
        match self.below(5) {
            0 => list.swap(at, at + 1),
            1 => list.insert(at, list[at].clone()),
            2 => list.insert(at, vec![10 + self.below(245) as u8, 0]),
            3 => return list.concat(),
            _ => {
                let mut options = list.concat();
                options.truncate(self.below(options.len()));
                return options;
            }
        }
        list.push(vec![255]);
        list.concat()
    }
}
