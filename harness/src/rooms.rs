//! The rooms of a store, but for its state.

use crate::random::Random;
use second::channel::{self as channel, Sizes};

/// The rooms, each of any length and with anything in it.
#[derive(Clone, Debug, PartialEq, Eq)]
pub struct Rooms {
    /// The pack's bytes.
    pub chunks: Vec<u8>,
    /// A bit for each chunk, low bit first: whether it is held.
    pub map: Vec<u32>,
    /// Eight words for each node, by its number.
    pub hashes: Vec<u32>,
    /// A bit for each node, low bit first: whether its hash is trusted.
    pub trusted: Vec<u32>,
    /// A row for each channel as in the map: what the peer has.
    pub has: Vec<u32>,
    /// The same: what the peer wants.
    pub wants: Vec<u32>,
    /// Where replies are written.
    pub reply: Vec<u8>,
}

impl Rooms {
    /// Rooms just large enough for a pack of such a length. All have been
    /// written to.
    pub fn least(length: u32) -> Self {
        let sizes = Sizes::of(length);
        Rooms {
            chunks: vec![1; sizes.chunks],
            map: vec![1; sizes.map],
            hashes: vec![1; sizes.hashes],
            trusted: vec![1; sizes.trusted],
            has: vec![1; sizes.has],
            wants: vec![1; sizes.wants],
            reply: vec![1; sizes.reply],
        }
    }

    /// Rooms with anything in them, each just large enough or a little larger.
    pub fn random(random: &mut Random, length: u32) -> Self {
        let sizes = Sizes::of(length);
        let mut more = |least: usize| match random.below(3) {
            0 => least + 1 + random.place(20),
            _ => least,
        };
        let [chunks, reply] = [sizes.chunks, sizes.reply].map(&mut more);
        let words = [
            sizes.map,
            sizes.hashes,
            sizes.trusted,
            sizes.has,
            sizes.wants,
        ]
        .map(&mut more);
        let [map, hashes, trusted, has, wants] = words.map(|length| random.words(length));
        Rooms {
            chunks: random.bytes(chunks),
            map,
            hashes,
            trusted,
            has,
            wants,
            reply: random.bytes(reply),
        }
    }

    /// Lends them with a state, as the proved code takes them.
    #[inline]
    pub fn lend<'a>(&'a mut self, state: &'a mut [u32]) -> ppspp::Rooms<'a> {
        ppspp::Rooms {
            state,
            chunks: &mut self.chunks,
            map: &mut self.map,
            hashes: &mut self.hashes,
            trusted: &mut self.trusted,
            has: &mut self.has,
            wants: &mut self.wants,
            reply: &mut self.reply,
        }
    }

    /// Lends them as `second` takes them.
    #[inline]
    pub fn lend_to_second(&mut self) -> channel::Rooms<'_> {
        channel::Rooms {
            chunks: &mut self.chunks,
            map: &mut self.map,
            hashes: &mut self.hashes,
            trusted: &mut self.trusted,
            has: &mut self.has,
            wants: &mut self.wants,
            reply: &mut self.reply,
        }
    }
}
