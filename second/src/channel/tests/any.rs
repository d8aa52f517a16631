//! Any states, rooms, numbers and bytes: each call gives what the slow reading
//! gives, which is an answer for all of them.

mod made;

use super::*;
use crate::answer::Refusal;
use crate::random::Random;
use crate::wire_cases::datagrams;

/// Orders whose rows have one word or two, with whole and short last chunks.
const LENGTHS: [u32; 10] = [
    1, 1_024, 1_025, 2_048, 3_066, 5_120, SEVEN, 8_192, 33_000, 40_954,
];

/// A pack with all the hashes of its tree, and what goes on.
struct Scene {
    random: Random,
    pack: Pack,
    hashes: Vec<Digest>,
    /// The method that most datagrams are made for.
    addressing: Addressing,
    /// Datagrams of any layout.
    any: Vec<Vec<u8>>,
    /// How often each number was given.
    seen: [usize; 15],
}

impl Scene {
    fn new(addressing: Addressing, seed: u64, length: u32) -> Self {
        let pack = Pack::new(length);
        let top = tree::root(tree::chunk_count(length));
        Scene {
            random: Random::new(seed),
            hashes: (0..=2 * top).map(|node| pack.hash(node)).collect(),
            addressing,
            any: datagrams(addressing, seed, 200).collect(),
            seen: [0; 15],
            pack,
        }
    }

    fn chance(&mut self, one_in: usize) -> bool {
        self.random.below(one_in) == 0
    }

    /// One of the few channel numbers that are used.
    fn id(&mut self) -> u32 {
        self.random.below(6) as u32
    }

    /// A chunk of the pack, or just behind it.
    fn chunk(&mut self) -> u32 {
        let count = tree::chunk_count(self.pack.length());
        match self.random.below(30) {
            0 => count + self.random.below(2) as u32,
            1 => self.random.number(),
            _ => self.random.below(count as usize) as u32,
        }
    }

    /// Rooms just large enough or a little larger, at times one too small, with
    /// anything in them.
    fn caller(&mut self) -> Caller {
        let mut sizes = Sizes::of(self.pack.length());
        for size in [
            &mut sizes.chunks,
            &mut sizes.map,
            &mut sizes.hashes,
            &mut sizes.trusted,
            &mut sizes.has,
            &mut sizes.wants,
            &mut sizes.reply,
        ] {
            match self.random.below(60) {
                0 => *size -= 1,
                1..20 => *size += self.random.below(5),
                _ => {}
            }
        }
        let mut caller = Caller::with_sizes(sizes);
        caller.state = self.state();
        self.garble(&mut caller);
        caller
    }

    /// An order, mostly the pack's, and rows with anything in them.
    fn state(&mut self) -> State {
        let mut state = State {
            root: self.pack.root(),
            length: self.pack.length(),
            addressing: self.addressing,
            ..State::default()
        };
        if self.chance(20) {
            state.addressing = [Addressing::Bins, Addressing::Ranges][self.random.below(2)];
        }
        if self.chance(10) {
            state.length = [0, 524_288, 524_289, u32::MAX][self.random.below(4)];
        }
        let (used, free) = match self.random.below(3) {
            0 => (16, 0),
            _ => (self.random.below(17), 1),
        };
        for row in &mut state.rows[..used] {
            *row = Row {
                phase: match self.random.below(8) {
                    0 if free == 1 => Phase::Free,
                    1 => Phase::Calling,
                    _ => Phase::Open,
                },
                id: self.random.below(20) as u32,
                peer: self.random.below(6) as u32,
                choked: self.random.below(2) == 0,
            };
        }
        state
    }

    /// Bits of the map and of the trusted nodes as no call leaves them; each
    /// hash is right, wrong or stays.
    fn garble(&mut self, caller: &mut Caller) {
        for room in [&mut caller.map, &mut caller.trusted] {
            for word in room {
                let bits = self.random.next() as u32;
                *word = [0, bits, bits & self.random.next() as u32, u32::MAX][self.random.below(4)];
            }
        }
        for room in [&mut caller.has, &mut caller.wants] {
            room.fill_with(|| self.random.next() as u32);
        }
        for (hash, words) in self.hashes.iter().zip(caller.hashes.chunks_exact_mut(8)) {
            if self.random.below(4) != 0 {
                for (word, bytes) in words.iter_mut().zip(hash.as_chunks().0) {
                    *word = u32::from_be_bytes(*bytes);
                }
            }
            if self.random.below(8) == 0 {
                words[self.random.below(8)] ^= 1;
            }
        }
    }
}

impl Scene {
    /// Makes some call, and compares it with the slow reading.
    fn step(&mut self, caller: &mut Caller) {
        let (got, wanted) = match self.random.below(40) {
            which @ 0..10 => {
                let ((number, reply), wanted) = self.other_call(which, caller);
                ((number, None, reply), wanted.map_err(Refusal::Number))
            }
            _ => {
                let (clock, id) = (self.random.time(), self.random.below(40) as u32);
                let datagram = self.datagram(&caller.state);
                let wanted = plain::take(caller, clock, id, &datagram);
                (caller.take_named(clock, id, &datagram), wanted)
            }
        };
        self.seen[usize::from(got.0)] += 1;
        match wanted {
            Ok((after, reply)) => {
                assert_eq!(got, (0, None, reply));
                assert!(*caller == after);
            }
            Err(refusal) => assert_eq!(got, (refusal.number(), refusal.node(), vec![])),
        }
        assert_eq!(caller.ask(), plain::ask(caller));
    }

    /// Makes a call other than taking in, one of ten: what it gives, and what the
    /// slow reading gives.
    fn other_call(&mut self, which: usize, caller: &mut Caller) -> ((u8, Vec<u8>), plain::Done) {
        let before = caller.clone();
        match which {
            0 => {
                let (root, length, method) = (self.pack.root(), self.length(), self.method());
                let got = (caller.start_under(method, &root, length), vec![]);
                (got, plain::start(&before, &root, length, method))
            }
            1 => {
                let (length, method) = (self.length(), self.method());
                let content = &self.pack.content;
                let got = (caller.build_under(method, length, content), vec![]);
                (got, plain::build(&before, length, method, content))
            }
            2..5 => {
                let id = self.random.below(40) as u32;
                (caller.open(id), plain::open(&before, id))
            }
            _ => {
                let (id, chunk, clock) = (self.id(), self.chunk(), self.random.time());
                let got = caller.write(id, chunk, clock);
                (got, plain::write(&before, id, chunk, clock))
            }
        }
    }

    /// The scene's method, at times another one.
    fn method(&mut self) -> u32 {
        match self.random.below(8) {
            0 => [1, 3, 4, 256, 258, u32::MAX][self.random.below(6)],
            1 => 2 * self.random.below(2) as u32,
            _ => self.addressing.number(),
        }
    }

    /// The pack's length, at times another one.
    fn length(&mut self) -> u32 {
        match self.random.below(8) {
            0 => [0, 524_288, 524_289, u32::MAX][self.random.below(4)],
            1 => LENGTHS[self.random.below(LENGTHS.len())],
            _ => self.pack.length(),
        }
    }
}

/// From a state that no call wrote, and on from what the calls make of it.
#[test]
fn calls_from_any_state() {
    from_any_state(Addressing::Ranges);
}

#[test]
fn calls_from_any_state_under_bins() {
    from_any_state(Addressing::Bins);
}

fn from_any_state(addressing: Addressing) {
    let mut seen = [0; 15];
    for (seed, length) in (0..).zip(LENGTHS) {
        let mut scene = Scene::new(addressing, seed, length);
        for _ in 0..150 {
            let mut caller = scene.caller();
            for _ in 0..40 {
                scene.step(&mut caller);
            }
        }
        for (all, here) in seen.iter_mut().zip(scene.seen) {
            *all += here;
        }
    }
    assert!(seen.iter().all(|&count| count > 100), "{seen:?}");
}

/// From a fresh store: lists of calls as demand 3 has them.
#[test]
fn calls_from_a_fresh_store() {
    from_a_fresh_store(Addressing::Ranges);
}

#[test]
fn calls_from_a_fresh_store_under_bins() {
    from_a_fresh_store(Addressing::Bins);
}

fn from_a_fresh_store(addressing: Addressing) {
    let mut whole = 0;
    for (seed, length) in (100..).zip(LENGTHS) {
        let mut scene = Scene::new(addressing, seed, length);
        for _ in 0..30 {
            let mut caller = Caller::new(length);
            let (method, root) = (addressing.number(), scene.pack.root());
            assert_eq!(caller.start_under(method, &root, length), 0);
            caller.opened_by_peer(1, 2);
            for _ in 0..200 {
                scene.step(&mut caller);
            }
            whole += u32::from(caller.ask().2);
            if caller.state.length != length {
                continue;
            }
            for chunk in 0..tree::chunk_count(length) {
                if is_set(&caller.map, chunk.into()) {
                    let start = 1024 * chunk as usize;
                    assert!(caller.chunks[start..].starts_with(scene.pack.chunk(chunk)));
                }
            }
        }
    }
    assert!(whole > 20, "{whole}");
}
