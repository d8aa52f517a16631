//! The comparison of what is held with the pack. It reads a store's rooms, and believes no answer of the library.

use crate::bits;
use ppspp::sizes::CHUNK_SIZE;
use ppspp::{Lend, Store};

/// The pack as it is.
#[derive(Clone, Debug)]
pub struct Pack {
    content: Vec<u8>,
}

impl Pack {
    /// The pack of a content.
    pub fn new(content: Vec<u8>) -> Pack {
        Pack { content }
    }

    /// Its bytes.
    pub fn content(&self) -> &[u8] {
        &self.content
    }

    /// Its chunks.
    pub fn chunks(&self) -> u32 {
        self.content.len().div_ceil(CHUNK_SIZE as usize) as u32
    }

    /// How many bytes of a chunk in a store's room are not those of the pack.
    pub fn bad_bytes_of_chunk<R: Lend>(&self, store: &Store<R>, chunk: u32) -> u64 {
        let size = CHUNK_SIZE as usize;
        let start = chunk as usize * size;
        let end = self.content.len().min(start + size);
        let room = store.view().chunks;
        differences(
            &self.content[start.min(end)..end],
            room.get(start..end).unwrap_or_default(),
        )
    }

    /// How many bytes of all held chunks are not those of the pack.
    pub fn bad_bytes<R: Lend>(&self, store: &Store<R>) -> u64 {
        let held = bits::ones(store.view().map);
        held.map(|chunk| self.bad_bytes_of_chunk(store, chunk))
            .sum()
    }

    /// What a store lacks at the end.
    pub fn verdict<R: Lend>(&self, store: &Store<R>) -> Verdict {
        let map = store.view().map;
        let asked = store.ask().unwrap_or(ppspp::Held {
            count: 0,
            whole: false,
        });
        let held = bits::count(map);
        Verdict {
            missing: self.chunks().saturating_sub(held),
            bad_bytes: self.bad_bytes(store),
            count_is_right: asked.count == held && asked.whole == (held == self.chunks()),
        }
    }
}

/// How many places of two byte strings differ; places that only one of them has differ.
pub fn differences(wanted: &[u8], found: &[u8]) -> u64 {
    if wanted == found {
        return 0;
    }
    let common = wanted.iter().zip(found).filter(|(a, b)| a != b).count();
    (common + wanted.len().abs_diff(found.len())) as u64
}

/// How a store stands at the end.
#[derive(Clone, Copy, Debug, PartialEq, Eq)]
pub struct Verdict {
    /// Chunks that are not in its map.
    pub missing: u32,
    /// Bytes of held chunks that are not the pack's.
    pub bad_bytes: u64,
    /// Whether asking gives the number of chunks in the map, and calls that whole exactly when it is all.
    pub count_is_right: bool,
}

impl Verdict {
    /// Whether all is as it should be.
    pub fn is_good(&self) -> bool {
        self.missing == 0 && self.bad_bytes == 0 && self.count_is_right
    }
}

/// What must not change where a call is refused: all rooms but the reply room, and without the chunks' bytes, which are
/// compared with the pack.
#[derive(Clone, Debug, PartialEq, Eq)]
pub struct Snapshot {
    state: Vec<u32>,
    map: Vec<u32>,
    hashes: Vec<u32>,
    trusted: Vec<u32>,
    has: Vec<u32>,
    wants: Vec<u32>,
}

impl Snapshot {
    /// Of a store.
    pub fn of<R: Lend>(store: &Store<R>) -> Snapshot {
        let view = store.view();
        Snapshot {
            state: view.state.to_vec(),
            map: view.map.to_vec(),
            hashes: view.hashes.to_vec(),
            trusted: view.trusted.to_vec(),
            has: view.has.to_vec(),
            wants: view.wants.to_vec(),
        }
    }

    /// The chunks that a store holds since then.
    pub fn new_chunks<R: Lend>(&self, store: &Store<R>) -> Vec<u32> {
        bits::ones(&bits::without(store.view().map, &self.map)).collect()
    }

    /// How many chunks that were held then a store no longer holds.
    pub fn vanished<R: Lend>(&self, store: &Store<R>) -> u64 {
        u64::from(bits::count(&bits::without(&self.map, store.view().map)))
    }

    /// Whether all of it is the same still.
    pub fn stands<R: Lend>(&self, store: &Store<R>) -> bool {
        let view = store.view();
        let rooms = [
            (&self.state, view.state),
            (&self.map, view.map),
            (&self.hashes, view.hashes),
            (&self.trusted, view.trusted),
            (&self.has, view.has),
            (&self.wants, view.wants),
        ];
        rooms.into_iter().all(|(then, now)| then == now)
    }
}
