//! The channel part against 01's words and against the list of traps, whose
//! numbers the tests give.

mod acks;
mod adding;
mod any;
mod chunks;
mod handshakes;
mod layouts;
mod methods;
mod naming;
mod opening;
mod packs;
mod plain;
mod ranges;
mod sessions;
mod starting;
mod under_bins;
mod writing;

use super::*;
use crate::packets::*;
use crate::tree;
use packs::Pack;

/// The length of the pack that RFC 7574 draws: seven chunks, the last of 1,018
/// bytes.
const SEVEN: u32 = 7_162;

/// The nodes that go out with chunk 0 of seven.
const WITH_CHUNK_0: [u64; 5] = [3, 5, 9, 2, 12];

/// A number, the node that it names, and a reply.
type Named = (u8, Option<u64>, Vec<u8>);

/// A caller: a state, and rooms to lend.
#[derive(Clone, Debug, PartialEq, Eq)]
struct Caller {
    state: State,
    chunks: Vec<u8>,
    map: Vec<u32>,
    hashes: Vec<u32>,
    trusted: Vec<u32>,
    has: Vec<u32>,
    wants: Vec<u32>,
    reply: Vec<u8>,
}

impl Caller {
    /// No store yet, and rooms with something in every place, larger than an
    /// order of this length needs.
    fn new(length: u32) -> Self {
        let sizes = Sizes::of(length);
        let bytes = |len: usize| (0..len).map(|i| (i * 89 % 255) as u8 + 1).collect();
        let words = |len: usize| (0..len).map(|i| 0x5a00_00a5 ^ i as u32).collect();
        Caller {
            state: State::default(),
            chunks: bytes(sizes.chunks + 100),
            map: words(sizes.map + 3),
            hashes: words(sizes.hashes + 20),
            trusted: words(sizes.trusted + 2),
            has: words(sizes.has + 5),
            wants: words(sizes.wants + 1),
            reply: bytes(2048 + 50),
        }
    }

    /// The same with rooms of exactly these sizes.
    fn with_sizes(sizes: Sizes) -> Self {
        let mut caller = Caller::new(0);
        caller.chunks.resize(sizes.chunks, 0x11);
        caller.map.resize(sizes.map, 0x12);
        caller.hashes.resize(sizes.hashes, 0x13);
        caller.trusted.resize(sizes.trusted, 0x14);
        caller.has.resize(sizes.has, 0x15);
        caller.wants.resize(sizes.wants, 0x16);
        caller.reply.resize(sizes.reply, 0x17);
        caller
    }

    /// Lends the rooms for a call that is to name no node, and gives its number
    /// and its reply.
    fn call(&mut self, call: impl FnOnce(&mut State, &mut Rooms) -> Outcome) -> (u8, Vec<u8>) {
        let (number, node, reply) = self.named(call);
        assert_eq!(node, None, "{number}");
        (number, reply)
    }

    /// Lends the rooms for a call, and gives its number, the node that it names,
    /// and its reply. A refusal changes nothing; bytes behind a reply stay, and
    /// what lies past the rows.
    fn named(&mut self, call: impl FnOnce(&mut State, &mut Rooms) -> Outcome) -> Named {
        let before = self.clone();
        let (state, mut rooms) = self.lend();
        let Outcome {
            number,
            length,
            node,
        } = call(state, &mut rooms);
        assert_eq!(node.is_some(), [9, 10].contains(&number), "{number}");
        if number != 0 {
            assert_eq!(length, 0, "{number}");
            assert!(*self == before, "{number} changes something");
            return (number, node, vec![]);
        }
        assert!(self.reply[length..] == before.reply[length..]);
        let sizes = Sizes::of(self.state.length);
        assert!(self.chunks[sizes.chunks..] == before.chunks[sizes.chunks..]);
        assert_eq!(self.map[sizes.map..], before.map[sizes.map..]);
        assert_eq!(self.hashes[sizes.hashes..], before.hashes[sizes.hashes..]);
        assert_eq!(
            self.trusted[sizes.trusted..],
            before.trusted[sizes.trusted..]
        );
        assert_eq!(self.has[sizes.has..], before.has[sizes.has..]);
        assert_eq!(self.wants[sizes.wants..], before.wants[sizes.wants..]);
        (number, node, self.reply[..length].to_vec())
    }

    /// The state and the rooms.
    fn lend(&mut self) -> (&mut State, Rooms<'_>) {
        let rooms = Rooms {
            chunks: &mut self.chunks,
            map: &mut self.map,
            hashes: &mut self.hashes,
            trusted: &mut self.trusted,
            has: &mut self.has,
            wants: &mut self.wants,
            reply: &mut self.reply,
        };
        (&mut self.state, rooms)
    }

    /// Under ranges.
    fn start(&mut self, root: &Digest, length: u32) -> u8 {
        self.start_under(2, root, length)
    }

    fn start_under(&mut self, method: u32, root: &Digest, length: u32) -> u8 {
        self.call(|state, rooms| start(state, rooms, root, length, method))
            .0
    }

    /// Under ranges.
    fn build(&mut self, length: u32, content: &[u8]) -> u8 {
        self.build_under(2, length, content)
    }

    fn build_under(&mut self, method: u32, length: u32, content: &[u8]) -> u8 {
        self.call(|state, rooms| build(state, rooms, length, method, content))
            .0
    }

    fn open(&mut self, id: u32) -> (u8, Vec<u8>) {
        self.call(|state, rooms| open(state, rooms, id))
    }

    fn take(&mut self, clock: u64, id: u32, datagram: &[u8]) -> (u8, Vec<u8>) {
        let (number, _, reply) = self.take_named(clock, id, datagram);
        (number, reply)
    }

    fn take_named(&mut self, clock: u64, id: u32, datagram: &[u8]) -> Named {
        self.named(|state, rooms| take(state, rooms, clock, id, datagram))
    }

    fn write(&mut self, id: u32, chunk: u32, clock: u64) -> (u8, Vec<u8>) {
        let before = self.clone();
        let result = self.call(|state, rooms| write(state, rooms, id, chunk, clock));
        let after = Caller {
            reply: before.reply.clone(),
            ..self.clone()
        };
        assert!(after == before, "writing changes the reply room alone");
        result
    }

    fn ask(&self) -> (u8, u32, bool) {
        let Held {
            number,
            count,
            whole,
        } = ask(&self.state, &self.map);
        (number, count, whole)
    }

    /// Takes messages in at clock 0, and gives the number; a channel is not to
    /// be opened, so ID 0 does not matter.
    fn number(&mut self, destination: u32, messages: &[&[u8]]) -> u8 {
        self.take(0, 0, &to(destination, messages)).0
    }

    /// A peer opens a channel, which is done and answered.
    fn opened_by_peer(&mut self, id: u32, source: u32) {
        let options = either::fixed(self.state.addressing, &self.state.root);
        let opening = to(0, &[&handshake(source, &options)]);
        let answer = to(source, &[&handshake(id, &options)]);
        assert_eq!(answer.len(), 60);
        assert_eq!(self.take(0, id, &opening), (0, answer));
    }

    /// The chunks, by number, whose bits are set in a row of the has room.
    fn has_of(&self, row: usize) -> Vec<u32> {
        self.set_bits(&self.has, row)
    }

    /// The same in the wants room.
    fn wants_of(&self, row: usize) -> Vec<u32> {
        self.set_bits(&self.wants, row)
    }

    fn set_bits(&self, room: &[u32], row: usize) -> Vec<u32> {
        let words = Sizes::of(self.state.length).map;
        let row = &room[row * words..(row + 1) * words];
        let count = tree::chunk_count(self.state.length);
        (0..count).filter(|&i| is_set(row, u64::from(i))).collect()
    }

    /// The nodes that are trusted, in rising order.
    fn trusted_nodes(&self) -> Vec<u64> {
        let count = tree::chunk_count(self.state.length);
        let nodes = 0..2 * u64::from(tree::leaf_places(count));
        nodes.filter(|&node| is_set(&self.trusted, node)).collect()
    }

    /// What stands in the hash room for a node.
    fn hash(&self, node: u64) -> Digest {
        let words = &self.hashes[8 * node as usize..8 * node as usize + 8];
        let bytes: Vec<u8> = words.iter().flat_map(|word| word.to_be_bytes()).collect();
        bytes.try_into().unwrap()
    }
}

/// Low bit first, 32 bits a word.
fn is_set(row: &[u32], number: u64) -> bool {
    row[number as usize / 32] & (1 << (number % 32)) != 0
}
