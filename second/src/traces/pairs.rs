//! Datagrams that merit two numbers.

use super::chunks::Sent;
use super::kinds::Kind;
use super::maker::Maker;
use crate::packets::*;

impl Maker {
    /// A datagram that merits both numbers; none if it cannot be made now.
    pub fn pair(&mut self, first: u8, second: u8) -> Option<Vec<u8>> {
        match (first, second) {
            (2, 3) => self.layout_then_place(),
            (3, 2) => self.place_then_layout(),
            (2 | 3, 4 | 6) | (4, 6) => self.two_in_a_handshake(first, second),
            (2, 5) => {
                let unknown = self.unknown();
                let messages = self.any_fault_in_layout();
                Some(to(self.random.one_of(&[0, unknown]), &[&messages]))
            }
            (3, 5) => self.misplaced_to_no_row(),
            (5, _) => self.no_row_then(second),
            (2 | 3 | 7, _) => self.two_on_a_channel(first, second),
            _ => {
                let sent = self.two_in_a_chunk(first, second)?;
                let messages = self.assembled(sent);
                Some(to(self.channel()?.0, &[&messages]))
            }
        }
    }

    /// A fault refused with 2, 3 or 7, and messages refused with a later number
    /// behind it; 7 may stand before 2 or 3.
    fn two_on_a_channel(&mut self, first: u8, second: u8) -> Option<Vec<u8>> {
        let (id, peer) = self.channel()?;
        let fault = match first {
            2 => self.any_fault_in_layout(),
            3 => handshake(peer, &self.fixed()),
            _ if self.random.one_in(2) => self.node_past(),
            _ => self.range_past(),
        };
        let later = self.later(second)?;
        if second == 7 && self.random.one_in(2) {
            return Some(to(id, &[&later, &CHOKE, &fault]));
        }
        Some(to(id, &[&fault, &later]))
    }

    /// Messages refused with 7, 8, 9 or 10 and no earlier number.
    fn later(&mut self, number: u8) -> Option<Vec<u8>> {
        let kinds: &[Kind] = match number {
            7 => return Some(self.range_past()),
            8 => &[Kind::ChunkLength],
            9 => &[Kind::PeakMissing, Kind::SiblingMissing],
            _ => &[Kind::ChunkDamaged, Kind::HashDamaged, Kind::LeafForged],
        };
        let kind = self.random.one_of(kinds);
        self.chunk_messages(kind).map(|(_, messages)| messages)
    }

    /// 2 before 3: in one message, or in the message that stands first.
    fn layout_then_place(&mut self) -> Option<Vec<u8>> {
        let (id, peer) = self.channel()?;
        let id = self.random.one_of(&[0, id]);
        let kind = self
            .random
            .one_of(&[Kind::UnknownOption, Kind::OptionOrder]);
        let faulty = handshake(peer, &self.faulty_options(kind));
        let good = handshake(peer, &self.fixed());
        Some(match self.random.below(4) {
            0 => to(id, &[&faulty, &CHOKE]),
            1 => to(id, &[&CHOKE, &faulty]),
            2 => to(id, &[&handshake(0, &faulty[5..])]),
            _ => to(id, &[&self.any_fault_before_a_handshake(), &good]),
        })
    }

    /// A fault that a HANDSHAKE behind it does not change.
    fn any_fault_before_a_handshake(&mut self) -> Vec<u8> {
        match self.random.below(2) {
            0 => REFUSED.to_vec(),
            _ => self.any_fault_in_layout(),
        }
    }

    /// 3 before 2: a HANDSHAKE with a fault behind it.
    fn place_then_layout(&mut self) -> Option<Vec<u8>> {
        let (id, peer) = self.channel()?;
        let good = handshake(peer, &self.fixed());
        let node = self.node_inside();
        let hash = self.hash_message(node);
        Some(match self.random.below(3) {
            0 => to(id, &[&good, &self.any_fault_in_layout()]),
            1 => to(id, &[&closing(), &[255]]),
            _ => to(id, &[&hash, &good, &hash]),
        })
    }

    /// A HANDSHAKE with two faults, or with one where all rows are in use.
    fn two_in_a_handshake(&mut self, first: u8, second: u8) -> Option<Vec<u8>> {
        if second == 6 && !self.is_full() {
            return None;
        }
        let kind = self
            .random
            .one_of(&[Kind::OptionMissing, Kind::OptionOther]);
        let other = self.other_options(kind);
        let source = self.source();
        let (id, peer) = self.channel()?;
        Some(match (first, second) {
            (2, 4) => {
                // Another version, and End is missing or stands too early.
                let mut options = self.fixed();
                options[1] = 2;
                options.truncate(options.len() - 1 - self.random.below(4));
                to(0, &[&handshake(source, &options)])
            }
            (2, _) => {
                let options = self.faulty_options(Kind::OptionOrder);
                to(0, &[&handshake(source, &options)])
            }
            (3, 4) => match self.random.below(3) {
                0 => to(id, &[&CHOKE, &handshake(peer, &other)]),
                1 => to(id, &[&handshake(peer, &other), &UNCHOKE]),
                _ => to(id, &[&handshake(self.other_source(peer), &other)]),
            },
            (3, _) => match self.random.below(2) {
                0 => to(0, &[&handshake(source, &self.fixed()), &CHOKE]),
                _ => to(0, &[&handshake(0, &self.fixed())]),
            },
            _ => to(0, &[&handshake(source, &other)]),
        })
    }

    /// 3 of the layout, to an ID that no channel has.
    fn misplaced_to_no_row(&mut self) -> Option<Vec<u8>> {
        let unknown = self.unknown();
        let source = self.source();
        let good = handshake(source, &self.fixed());
        Some(match self.random.below(4) {
            0 => to(unknown, &[&good, &CHOKE]),
            1 => to(unknown, &[&UNCHOKE, &closing()]),
            2 => to(0, &[&CHOKE, &good]),
            _ => to(unknown, &[&handshake(0, &self.options_not_end_alone())]),
        })
    }

    /// A datagram to no row that merits a later number besides.
    fn no_row_then(&mut self, second: u8) -> Option<Vec<u8>> {
        let unknown = self.unknown();
        let source = self.source();
        match second {
            4 => {
                let options = self.other_options(Kind::OptionOther);
                Some(to(unknown, &[&handshake(source, &options)]))
            }
            6 if self.is_full() => Some(to(unknown, &[&handshake(source, &self.fixed())])),
            6 => None,
            _ => {
                let later = self.later(second)?;
                Some(to(self.random.one_of(&[0, unknown]), &[&later]))
            }
        }
    }

    /// A chunk with two faults.
    fn two_in_a_chunk(&mut self, first: u8, second: u8) -> Option<Sent> {
        let missing = self
            .random
            .one_of(&[Kind::PeakMissing, Kind::SiblingMissing]);
        let mut sent = match second {
            9 => self.without_a_needed(missing)?,
            _ if first == 9 => self.without_a_needed(missing)?,
            _ => self.with_a_needed_spoilt()?,
        };
        if first == 8 {
            self.spoil_length(&mut sent);
        } else if self.random.one_in(2) {
            self.spoil_bytes(&mut sent);
        } else {
            for (_, hash) in &mut sent.hashes {
                hash[0] ^= 1;
            }
            self.spoil_bytes(&mut sent);
        }
        Some(sent)
    }
}
