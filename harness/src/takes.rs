//! The chunks that come for a pack, right and wrong, with hashes right and
//! wrong.

use crate::came::{all, least, least_nodes, with_hashes, Came};
use crate::naming::{Answer, Offer};
use crate::packets::{data, integrity};
use crate::packs::Pack;
use crate::proved::store::{self as proved, Order, Rooms};
use crate::random::Random;
use second::store::{NodeHash, Store};
use second::tree;
use second::wire::Addressing;

/// A chunk that comes.
pub struct Take {
    pub number: u32,
    pub chunk: Vec<u8>,
    pub came: Came,
    /// How it was made.
    pub what: String,
}

impl Take {
    /// A right chunk, with the hashes that the store needs for it.
    pub fn right(pack: &Pack, store: &Store, number: u32) -> Self {
        Take {
            number,
            chunk: pack.chunk(number).to_vec(),
            came: Came::new(&least(&pack.built, store, number)),
            what: format!("chunk {number}, the least hashes"),
        }
    }

    /// A chunk right and wrong, with all the hashes that go out with it, with
    /// all but one, with that one wrong, and with none.
    pub fn eight(pack: &Pack, number: u32, one: usize) -> Vec<Self> {
        let right = pack.chunk(number);
        let mut damaged = right.to_vec();
        damaged[0] ^= 1;
        let short = &right[..right.len() - 1];
        let all = all(&pack.built, number);
        let one = one % all.len();
        let mut all_but_one = all.clone();
        all_but_one.remove(one);
        let mut one_wrong = all.clone();
        one_wrong[one].1[0] ^= 1;
        let take = |chunk: &[u8], hashes: &[NodeHash], what: &str| Take {
            number,
            chunk: chunk.to_vec(),
            came: Came::new(hashes),
            what: format!("chunk {number}, {what}"),
        };
        vec![
            take(right, &[], "no hashes"),
            take(&damaged, &all, "damaged"),
            take(right, &all_but_one, "all hashes but one"),
            take(right, &one_wrong, "one hash wrong"),
            take(short, &all, "a byte short"),
            take(right, &all, "right"),
            take(right, &[], "right, once more, no hashes"),
            take(&damaged, &all, "damaged, once more"),
        ]
    }

    /// A chunk that may be wrong, with hashes that may be.
    pub fn random(random: &mut Random, pack: &Pack, store: &Store) -> Self {
        let number = random.below(pack.count());
        let mut take = Take {
            number,
            chunk: pack.chunk(number).to_vec(),
            came: Came::default(),
            what: format!("chunk {number}"),
        };
        let hashes = take.hashes(random, pack, store);
        take.lay_out(random, hashes);
        take.spoil_entries(random, pack);
        take.spoil_chunk(random, pack.count());
        take
    }

    /// A chunk that a store with such trusted nodes refuses for a hash, with 9 or
    /// 10: of those that it needs some are missing or one is wrong, or the chunk is.
    pub fn lacking(random: &mut Random, pack: &Pack, trusts: impl Fn(u64) -> bool) -> Self {
        let number = random.below(pack.count());
        let mut chunk = pack.chunk(number).to_vec();
        let least = with_hashes(&pack.built, least_nodes(pack.count(), number, trusts));
        let mut fewer = least.clone();
        if !least.is_empty() {
            fewer.remove(random.place(least.len()));
        }
        let (what, mut hashes) = match random.below(8) {
            _ if least.is_empty() => ("wrong", least),
            0 => ("one hash missing", fewer),
            1..4 => ("some hashes missing", some(random, fewer)),
            4 => ("a hash missing, one wrong", one_wrong(random, fewer)),
            5 | 6 => ("one hash wrong", one_wrong(random, least)),
            _ => ("wrong", least),
        };
        if what == "wrong" || random.one_in(8) {
            let at = random.place(chunk.len());
            chunk[at] ^= 1 << random.below(8);
        }
        random.shuffle(&mut hashes);
        Take {
            number,
            chunk,
            came: Came::new(&hashes),
            what: format!("chunk {number}, {what}"),
        }
    }

    /// What counts of it for the node that is named, in a pack of so many chunks.
    pub fn offer(&self, count: u32) -> Offer {
        let came = self.came.hashes();
        Offer {
            count,
            chunk: self.number,
            came: came.into_iter().map(|(node, _)| node).collect(),
        }
    }

    /// The messages of a datagram with it: INTEGRITY for each hash, then DATA.
    pub fn messages(&self, addressing: Addressing, time: u64) -> Vec<Vec<u8>> {
        let hashes = self.came.hashes().into_iter();
        let hashes = hashes.map(|(node, hash)| integrity(addressing, node, &hash));
        let data = data(addressing, self.number, self.number, time, &self.chunk);
        hashes.chain([data]).collect()
    }

    /// Gives it to the proved store.
    pub fn to_proved(&self, order: Order, rooms: &mut Rooms) -> Answer {
        let Came { entries, bytes } = &self.came;
        proved::take(order, rooms, self.number, &self.chunk, entries, bytes)
    }

    /// Gives it to `second`'s.
    pub fn to_second(&self, store: &mut Store) -> Answer {
        let (number, node) = store.take(self.number, &self.chunk, &self.came.hashes());
        (number.into(), node)
    }

    fn say(&mut self, what: &str) {
        self.what.push_str(", ");
        self.what.push_str(what);
    }

    /// Hashes for the chunk: all, the least, some of them, or one wrong.
    fn hashes(&mut self, random: &mut Random, pack: &Pack, store: &Store) -> Vec<NodeHash> {
        let all = all(&pack.built, self.number);
        let least = least(&pack.built, store, self.number);
        let (what, mut hashes) = match random.below(10) {
            0..2 => ("all hashes", all),
            2..5 => ("the least hashes", least),
            5 => ("some of all hashes", some(random, all)),
            6 => ("some of the least hashes", some(random, least)),
            7 => ("all hashes but one wrong", one_wrong(random, all)),
            _ => ("the least hashes but one wrong", one_wrong(random, least)),
        };
        self.say(what);
        if random.one_in(4) {
            self.say("garbage beside");
            self.add_garbage(random, pack.count(), &mut hashes);
        }
        if random.one_in(3) {
            self.say("shuffled");
            random.shuffle(&mut hashes);
        }
        hashes
    }

    /// Hashes of nodes by chance: of the chunk's leaf, of the tree or beyond
    /// it. A node may then be there twice.
    fn add_garbage(&self, random: &mut Random, count: u32, hashes: &mut Vec<NodeHash>) {
        for _ in 0..=random.below(4) {
            let node = match random.below(4) {
                0 => tree::leaf(self.number),
                1 | 2 => random.below(4 * count).into(),
                _ => u64::from(random.number()) << random.below(33),
            };
            let at = random.place(hashes.len() + 1);
            hashes.insert(at, (node, random.digest()));
        }
    }

    /// Puts the hashes into the bytes, with some bytes around them.
    fn lay_out(&mut self, random: &mut Random, hashes: Vec<NodeHash>) {
        let mut gap = |came: &mut Came| {
            let size = random.one_of(&[0, 0, 0, 1, 9]);
            came.bytes.extend(random.bytes(size));
        };
        for (node, hash) in hashes {
            gap(&mut self.came);
            self.came.push(node, &hash);
        }
        gap(&mut self.came);
    }

    /// A place past the bytes for one of the hashes, or one word more, a node
    /// without a place.
    fn spoil_entries(&mut self, random: &mut Random, pack: &Pack) {
        let Came { entries, bytes } = &mut self.came;
        let length = bytes.len() as u64;
        let hashes = entries.len() / 2;
        if hashes > 0 && random.one_in(8) {
            let past = [length - 31, length, u64::MAX - 31, u64::MAX];
            entries[2 * random.place(hashes) + 1] = random.one_of(&past);
            self.say("a place past the bytes");
        }
        if random.one_in(6) {
            let nodes = tree::sending_order(pack.count(), self.number);
            self.came.entries.push(random.one_of(&nodes));
            self.say("an odd word");
        }
    }

    /// Wrong bytes, another length, or a number past the pack's chunks.
    fn spoil_chunk(&mut self, random: &mut Random, count: u32) {
        match random.below(10) {
            0 => {
                let at = random.place(self.chunk.len());
                self.chunk[at] ^= 1 << random.below(8);
                self.say("a wrong bit");
            }
            1 => {
                let size = self.chunk.len();
                let others = [0, size - 1, size + 1, 1, 1_023, 1_024, 1_025, 2_048];
                self.chunk.resize(random.one_of(&others), 0);
                self.say(&format!("cut or filled to {} bytes", self.chunk.len()));
            }
            2 => {
                self.number = random
                    .one_of(&[count, count + 1, 512, 1 << 22, u32::MAX])
                    .max(count);
                self.say(&format!("as chunk {}", self.number));
            }
            _ => {}
        }
    }
}

/// Each of these or not.
fn some(random: &mut Random, mut hashes: Vec<NodeHash>) -> Vec<NodeHash> {
    hashes.retain(|_| !random.one_in(3));
    hashes
}

/// One bit of one of these is wrong.
fn one_wrong(random: &mut Random, mut hashes: Vec<NodeHash>) -> Vec<NodeHash> {
    if !hashes.is_empty() {
        let one = random.place(hashes.len());
        hashes[one].1[random.place(32)] ^= 1 << random.below(8);
    }
    hashes
}
