//! Rooms that are allocated.

use crate::rooms::{Lend, Rooms, View};
use crate::sizes;
use alloc::{vec, vec::Vec};

/// Rooms that are allocated for packs up to a length.
#[derive(Clone, Debug, PartialEq, Eq)]
pub struct OwnedRooms {
    state: Vec<u32>,
    chunks: Vec<u8>,
    map: Vec<u32>,
    hashes: Vec<u32>,
    trusted: Vec<u32>,
    has: Vec<u32>,
    wants: Vec<u32>,
    reply: Vec<u8>,
}

impl OwnedRooms {
    /// Rooms for any order up to a length; over 524,288 bytes, which no order may have, rooms for that many.
    pub fn for_length(length: u32) -> Self {
        let length = length.min(sizes::MAX_LENGTH);
        let n = sizes::chunk_count(length);
        OwnedRooms {
            state: vec![0; sizes::STATE_WORDS],
            chunks: vec![0; length as usize],
            map: vec![0; sizes::map_words(n)],
            hashes: vec![0; sizes::hash_words(n)],
            trusted: vec![0; sizes::trusted_words(n)],
            has: vec![0; sizes::peer_words(n)],
            wants: vec![0; sizes::peer_words(n)],
            reply: vec![0; sizes::REPLY_BYTES],
        }
    }
}

impl Lend for OwnedRooms {
    fn lend(&mut self) -> Rooms<'_> {
        Rooms {
            state: &mut self.state,
            chunks: &mut self.chunks,
            map: &mut self.map,
            hashes: &mut self.hashes,
            trusted: &mut self.trusted,
            has: &mut self.has,
            wants: &mut self.wants,
            reply: &mut self.reply,
        }
    }

    fn view(&self) -> View<'_> {
        View {
            state: &self.state,
            chunks: &self.chunks,
            map: &self.map,
            hashes: &self.hashes,
            trusted: &self.trusted,
            has: &self.has,
            wants: &self.wants,
            reply: &self.reply,
        }
    }
}
