//! HANDSHAKEs, good and bad.

use super::kinds::Kind;
use super::maker::Maker;
use crate::channel::CHANNELS;
use crate::packets::*;

/// An option's code and what stands behind it.
type Choice = (u8, Vec<u8>);

impl Maker {
    /// A datagram of a kind that is a HANDSHAKE with at most other messages
    /// around it; none for other kinds, or if it cannot be made now.
    pub fn handshake_datagram(&mut self, kind: Kind) -> Option<Vec<u8>> {
        let full = self.is_full();
        match kind {
            Kind::Opening if !full => Some(self.opening()),
            Kind::Full if full => Some(self.opening()),
            Kind::Closing => Some(to(self.channel()?.0, &[&closing()])),
            Kind::Again => {
                let (id, peer) = self.channel()?;
                Some(to(id, &[&handshake(peer, &self.fixed())]))
            }
            Kind::NewSource => {
                let (id, peer) = self.channel()?;
                let source = self.other_source(peer);
                Some(to(id, &[&handshake(source, &self.fixed())]))
            }
            Kind::BothZero => {
                let options = self.sound_options();
                Some(to(0, &[&handshake(0, &options)]))
            }
            Kind::ClosingWithOptions => {
                let options = self.options_not_end_alone();
                Some(to(self.channel()?.0, &[&handshake(0, &options)]))
            }
            Kind::HandshakeBehind | Kind::BytesBehind => self.not_alone(kind),
            Kind::OptionMissing | Kind::OptionOther => {
                let options = self.other_options(kind);
                self.with_options(&options)
            }
            Kind::UnknownOption | Kind::OptionOrder | Kind::NoEnd => {
                let options = self.faulty_options(kind);
                self.with_options(&options)
            }
            _ => None,
        }
    }

    /// Whether all rows are in use.
    pub fn is_full(&self) -> bool {
        self.session.open_channels().len() == CHANNELS
    }

    /// A HANDSHAKE to channel 0 that opens a channel if a row is free.
    pub fn opening(&mut self) -> Vec<u8> {
        let source = self.source();
        to(0, &[&handshake(source, &self.fixed())])
    }

    /// 01's fixed options.
    pub fn fixed(&self) -> Vec<u8> {
        fixed(&self.pack.root)
    }

    /// A peer's channel number: a small one as our IDs are, one that another
    /// peer has, or any but 0.
    pub fn source(&mut self) -> u32 {
        match self.random.below(4) {
            0 | 1 => 1 + self.random.below(20) as u32,
            2 => self.channel().map_or(1, |(_, peer)| peer),
            _ => self.random.next() as u32 | 1,
        }
    }

    /// Another one than this.
    pub fn other_source(&mut self, peer: u32) -> u32 {
        loop {
            let source = self.source();
            if source != peer {
                return source;
            }
        }
    }

    /// A HANDSHAKE with these options to channel 0, or to an open channel from
    /// its own peer.
    fn with_options(&mut self, options: &[u8]) -> Option<Vec<u8>> {
        let (id, peer) = if self.random.one_in(2) && !self.is_full() {
            (0, self.source())
        } else {
            self.channel()?
        };
        Some(to(id, &[&handshake(peer, options)]))
    }

    /// A good HANDSHAKE with a message before it, or any byte behind it.
    fn not_alone(&mut self, kind: Kind) -> Option<Vec<u8>> {
        let (id, peer) = self.channel()?;
        let good = match self.random.below(3) {
            0 => closing(),
            _ => handshake(peer, &self.fixed()),
        };
        let messages = self.plain_messages();
        Some(match kind {
            Kind::HandshakeBehind => to(id, &[&messages, &good]),
            _ => to(id, &[&good, &messages]),
        })
    }

    /// The fixed options one by one, without End.
    fn choices(&self) -> Vec<Choice> {
        let id = [&[0, 32], &self.pack.root[..]].concat();
        let list = [(0, vec![1]), (1, vec![1]), (2, id), (3, vec![1])];
        let rest = [(4, vec![2]), (6, vec![2]), (9, vec![0, 0, 4, 0])];
        list.into_iter().chain(rest).collect()
    }

    /// Options of sound layout: one is missing, or one is other than 01's.
    pub fn other_options(&mut self, kind: Kind) -> Vec<u8> {
        let mut choices = self.choices();
        let place = self.random.below(choices.len());
        if kind == Kind::OptionMissing {
            match self.random.below(4) {
                0 => choices.clear(),
                1 => choices.truncate(place),
                _ => drop(choices.remove(place)),
            }
        } else if self.random.one_in(3) {
            self.add_option(&mut choices);
        } else {
            self.change_option(&mut choices[place]);
        }
        concatenated(&choices)
    }

    /// One more option than 01 has, at its place.
    fn add_option(&mut self, choices: &mut Vec<Choice>) {
        let length = self.random.one_of(&[0, 1, 32, 255]);
        let supported = [&[length as u8], &self.random.bytes(length)[..]].concat();
        let window = self.random.bytes(4);
        let added = [(5, vec![0]), (7, window), (8, supported)];
        choices.push(added[self.random.below(added.len())].clone());
        choices.sort();
    }

    /// Another value of the same option.
    fn change_option(&mut self, (code, value): &mut Choice) {
        if *code == 2 && self.random.one_in(2) {
            let length = self.random.one_of(&[0, 1, 31, 33, 64, 288]);
            *value = [
                &(length as u16).to_be_bytes(),
                &self.random.bytes(length)[..],
            ]
            .concat();
            return;
        }
        // Behind the length of a swarm ID.
        let front = if *code == 2 { 2 } else { 0 };
        let place = front + self.random.below(value.len() - front);
        value[place] ^= 1 << self.random.below(8);
    }

    /// Options of any sound layout.
    fn sound_options(&mut self) -> Vec<u8> {
        match self.random.below(3) {
            0 => vec![255],
            1 => self.fixed(),
            _ => self.options_not_end_alone(),
        }
    }

    /// The same, at least one before End.
    pub fn options_not_end_alone(&mut self) -> Vec<u8> {
        match self.random.below(3) {
            0 => self.fixed(),
            1 => self.other_options(Kind::OptionOther),
            _ => vec![0, 1, 255],
        }
    }

    /// Options with an unknown one, with one out of order or twice, or without
    /// End.
    pub fn faulty_options(&mut self, kind: Kind) -> Vec<u8> {
        let mut choices = self.choices();
        let place = self.random.below(choices.len() - 1);
        match kind {
            Kind::UnknownOption => {
                let code = 10 + self.random.below(245) as u8;
                // Also right before End.
                let place = self.random.below(choices.len() + 1);
                choices.insert(place, (code, vec![0]));
            }
            Kind::OptionOrder if self.random.one_in(2) => choices.swap(place, place + 1),
            Kind::OptionOrder => choices.insert(place, choices[place].clone()),
            _ => {
                let mut options = concatenated(&choices);
                let cut = match self.random.below(2) {
                    0 => 1,
                    _ => 1 + self.random.below(options.len()),
                };
                options.truncate(options.len() - cut);
                return options;
            }
        }
        concatenated(&choices)
    }
}

/// The bytes of options, and End.
fn concatenated(choices: &[Choice]) -> Vec<u8> {
    let mut options = Vec::new();
    for (code, value) in choices {
        options.push(*code);
        options.extend(value);
    }
    options.push(255);
    options
}
