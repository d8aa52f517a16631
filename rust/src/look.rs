//! What stands in a store's rooms, read without a call of the library.
//!
//! Every room may have any length and any words: nothing here panics. Without an order there is nothing to be seen.

use crate::display::InWords;
use crate::message::Message;
use crate::order::{Addressing, Order};
use crate::reading::{messages, Messages};
use crate::rooms::Lend;
use crate::sizes::{self, fixed};
use crate::store::Store;
use crate::sys;
use crate::table::{self, Channel, Phase};

impl<R: Lend> Store<R> {
    /// The order; none where calls are answered with 12, or with 11 for the state room.
    pub fn order(&self) -> Option<Order> {
        let state = self.view().state;
        if state.len() < sys::PPSPP_STATE_WORDS
            || state[sys::PPSPP_WORD_VERSION] != sys::PPSPP_LAYOUT_VERSION
        {
            return None;
        }
        let length = state[sys::PPSPP_WORD_LENGTH];
        let mut root = [0; sizes::ROOT_BYTES];
        let words = &state[sys::PPSPP_WORD_ROOT..sys::PPSPP_WORD_LENGTH];
        for (bytes, word) in root.chunks_exact_mut(4).zip(words) {
            bytes.copy_from_slice(&word.to_be_bytes());
        }
        let order = Order::new(root, length).method(state[sys::PPSPP_WORD_ADDRESSING]);
        let sound = (1..=sizes::MAX_LENGTH).contains(&length) && order.known_addressing().is_some();
        sound.then_some(order)
    }

    /// The order's addressing; without an order ranges.
    pub fn addressing(&self) -> Addressing {
        let ordered = self.order().and_then(|order| order.known_addressing());
        ordered.unwrap_or_default()
    }

    /// The messages of a datagram, read under the store's addressing; see [`messages`].
    pub fn messages<'a>(&self, datagram: &'a [u8]) -> Messages<'a> {
        messages(self.addressing(), datagram)
    }

    /// A message in words, under the store's addressing and cut to its pack; see [`InWords::in_pack`].
    pub fn in_words<'a>(&self, message: Message<'a>) -> InWords<'a> {
        let words = message.in_words(self.addressing());
        match self.count() {
            0 => words,
            n => words.in_pack(n),
        }
    }

    /// Whether a chunk is held.
    pub fn holds(&self, chunk: u32) -> bool {
        chunk < self.count() && bit(self.view().map, 0, chunk)
    }

    /// The bytes of the pack, those of chunks that are not held included, which may be anything.
    pub fn bytes(&self) -> &[u8] {
        let chunks = self.view().chunks;
        let length = self.order().map_or(0, |order| order.length as usize);
        &chunks[..length.min(chunks.len())]
    }

    /// The bytes of a chunk that is held.
    pub fn chunk(&self, chunk: u32) -> Option<&[u8]> {
        if !self.holds(chunk) {
            return None;
        }
        let start = (chunk * sizes::CHUNK_SIZE) as usize;
        let rest = self.bytes().get(start..)?;
        Some(&rest[..rest.len().min(sizes::CHUNK_SIZE as usize)])
    }

    /// The chunks that are not held, rising.
    pub fn missing(&self) -> impl Iterator<Item = u32> + '_ {
        (0..self.count()).filter(|&chunk| !self.holds(chunk))
    }

    /// The channels, by rising row; free rows are left out.
    pub fn channels(&self) -> impl Iterator<Item = Channel> + '_ {
        let rows = self.order().map_or(0, |_| sizes::CHANNELS);
        (0..rows).filter_map(|row| table::channel(self.view().state, row))
    }

    /// The channel of an ID of ours.
    pub fn channel(&self, id: u32) -> Option<Channel> {
        self.channels().find(|channel| channel.id == id)
    }

    /// Whether the peer of a row's open channel has told that it has a chunk.
    pub fn peer_has(&self, row: u32, chunk: u32) -> bool {
        self.peer_bit(self.view().has, row, chunk)
    }

    /// Whether the peer of a row's open channel has asked for a chunk, and not acknowledged or cancelled it since, by
    /// ACK, HAVE or CANCEL. That we write the chunk changes nothing.
    pub fn peer_wants(&self, row: u32, chunk: u32) -> bool {
        self.peer_bit(self.view().wants, row, chunk)
    }

    /// Whether a node of the tree is trusted, so that its hash is held. Chunk i is node 2i.
    ///
    /// The node's bit is bit `node` of the room of trusted bits. Its hash stands in words `8 * node` to `8 * node + 7`
    /// of the hash room, the first byte of each four in the high bits.
    pub fn trusts(&self, node: u64) -> bool {
        let places = |order: Order| fixed::leaf_places(order.chunk_count()) as u64;
        let nodes = self.order().map_or(0, |order| 2 * places(order) - 1);
        node < nodes && bit(self.view().trusted, 0, node as u32)
    }

    /// The bit of a chunk in the row of an open channel; in other rows bits are cleared, or left from earlier.
    fn peer_bit(&self, rows: &[u32], row: u32, chunk: u32) -> bool {
        let is_open = |channel: Channel| channel.row == row && channel.phase == Phase::Open;
        self.channels().any(is_open)
            && chunk < self.count()
            && bit(rows, row as usize * sizes::map_words(self.count()), chunk)
    }

    /// The chunks of the pack; 0 without an order.
    fn count(&self) -> u32 {
        self.order().map_or(0, |order| order.chunk_count())
    }
}

/// A bit of the row of words that begins at a word, low bit first; words that are not there have none.
fn bit(words: &[u32], row: usize, at: u32) -> bool {
    words
        .get(row + at as usize / 32)
        .is_some_and(|word| word >> (at % 32) & 1 == 1)
}
