//! Random packs, and random rooms for them.

use crate::beside::least_lengths;
use crate::proved::store::Rooms;
use crate::random::Random;
use second::store::Store;
use second::tree;

/// Bytes of last chunks, and numbers of chunks, around the borders.
const LAST_SIZES: [u32; 5] = [1, 2, 1_018, 1_023, 1_024];
const COUNTS: [u32; 9] = [31, 32, 33, 63, 64, 65, 127, 128, 129];
const LARGE_COUNTS: [u32; 6] = [255, 256, 257, 510, 511, 512];

/// The length of a pack, mostly of few chunks.
pub fn random_length(random: &mut Random) -> u32 {
    let count = match random.below(20) {
        0..12 => 1 + random.below(9),
        12..17 => 1 + random.below(40),
        17..19 => random.one_of(&COUNTS),
        _ => random.one_of(&LARGE_COUNTS),
    };
    let last = match random.below(8) {
        0..6 => random.one_of(&LAST_SIZES),
        _ => 1 + random.below(tree::CHUNK_SIZE),
    };
    tree::CHUNK_SIZE * (count - 1) + last
}

/// Rooms with anything in them, each just large enough or a little larger.
pub fn random_rooms(random: &mut Random, length: u32) -> Rooms {
    let [chunks, map, hashes, trusted] = least_lengths(length).map(|least| match random.below(3) {
        0 => least + 1 + random.place(20),
        _ => least,
    });
    Rooms {
        chunks: random.bytes(chunks),
        map: random.words(map),
        hashes: random.words(hashes),
        trusted: random.words(trusted),
    }
}

/// A pack, and `second`'s whole store of it.
pub struct Pack {
    pub content: Vec<u8>,
    pub built: Store,
}

impl Pack {
    /// A random one of such a length, which an order may have.
    pub fn new(random: &mut Random, length: u32) -> Self {
        let content = random.bytes(length as usize);
        let built = Store::build(&content).expect("an order's length");
        Pack { content, built }
    }

    pub fn length(&self) -> u32 {
        self.built.length()
    }

    /// The number of chunks.
    pub fn count(&self) -> u32 {
        self.built.count()
    }

    /// The bytes of a chunk.
    pub fn chunk(&self, number: u32) -> &[u8] {
        let start = (number * tree::CHUNK_SIZE) as usize;
        let size = tree::chunk_size(self.length(), number) as usize;
        &self.content[start..start + size]
    }
}
