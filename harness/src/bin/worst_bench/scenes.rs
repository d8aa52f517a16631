//! The states in which a datagram may find a store of 512 chunks, and the time
//! that it takes there.

use harness::bench::timed;
use harness::calls::Told;
use harness::channels::words_of;
use harness::packets::{datagram, fixed, handshake};
use harness::packs::Pack;
use harness::proved;
use harness::random::Random;
use harness::rooms::Rooms;
use ppspp::calls;
use second::channel::{self as channel, State, CHANNELS};
use second::hex;
use second::wire::Addressing;
use std::hint::black_box;
use std::sync::OnceLock;
use std::time::Duration;

/// The method of all stores and datagrams, which is set once.
pub static METHOD: OnceLock<Addressing> = OnceLock::new();

/// That method.
pub fn addressing() -> Addressing {
    *METHOD.get().unwrap_or(&Addressing::Ranges)
}

/// The open channel that most datagrams are for, and the source of its peer.
pub const CHANNEL: u32 = 5;
pub const PEER: u32 = 9;

/// A calling channel.
pub const CALLING: u32 = 6;

/// An ID that no channel has.
pub const UNUSED: u32 = 7;

/// The IDs of the other channels are from here on.
const OTHERS: u32 = 100;

/// The clock of all calls.
const CLOCK: u64 = 42;

/// How many datagrams a run takes in, each in a store of its own.
pub const COPIES: usize = 16;

/// What a store has before the datagram comes. In each, the channel stands behind
/// 14 others, of which the last one is calling.
#[derive(Clone, Copy, Debug, PartialEq, Eq)]
pub enum Scene {
    /// No chunk, and one row free, the last.
    Fresh,
    /// No chunk, and no row free.
    Full,
    /// All chunks.
    Whole,
    /// No chunk, and the pack's last one has one byte.
    Short,
}

impl Scene {
    pub const ALL: [Scene; 4] = [Scene::Fresh, Scene::Full, Scene::Whole, Scene::Short];

    /// The pack's length.
    fn length(self) -> u32 {
        match self {
            Scene::Short => 511 * 1_024 + 1,
            _ => 512 * 1_024,
        }
    }
}

/// A store with its state in both forms.
#[derive(Clone)]
struct Store {
    words: Vec<u32>,
    state: State,
    rooms: Rooms,
}

impl Store {
    fn new(scene: Scene, pack: &Pack) -> Self {
        let (length, root) = (pack.length(), pack.built.root());
        let method = addressing().number();
        let mut rooms = Rooms::least(length);
        let mut state = State::default();
        let lent = &mut rooms.lend_to_second();
        let begun = match scene {
            Scene::Whole => channel::build(&mut state, lent, length, method, &pack.content),
            _ => channel::start(&mut state, lent, root, length, method),
        };
        assert_eq!(begun.number, 0);
        let mut open = |id| {
            let opening = datagram(0, &[handshake(PEER, &fixed(addressing(), root))]);
            let opened = match id {
                CALLING => channel::open(&mut state, lent, id),
                _ => channel::take(&mut state, lent, CLOCK, id, &opening),
            };
            assert_eq!(opened.number, 0);
        };
        (OTHERS..).take(CHANNELS - 3).for_each(&mut open);
        [CALLING, CHANNEL].into_iter().for_each(&mut open);
        if scene == Scene::Full {
            open(OTHERS - 1);
        }
        Store {
            words: words_of(&state).to_vec(),
            state,
            rooms,
        }
    }

    /// Makes it as this one was, but for the bytes of chunks that are not held and
    /// the hashes of nodes that are not trusted.
    fn restore(&mut self, before: &Store) {
        self.words.copy_from_slice(&before.words);
        self.state.clone_from(&before.state);
        self.rooms.map.copy_from_slice(&before.rooms.map);
        self.rooms.trusted.copy_from_slice(&before.rooms.trusted);
        self.rooms.has.copy_from_slice(&before.rooms.has);
        self.rooms.wants.copy_from_slice(&before.rooms.wants);
    }
}

/// A pack, a store of it in such a state, and its copies.
pub struct Stage {
    pub pack: Pack,
    before: Store,
    copies: Vec<Store>,
}

impl Stage {
    pub fn new(scene: Scene) -> Self {
        let pack = Pack::new(&mut Random::new(0), scene.length());
        let before = Store::new(scene, &pack);
        Stage {
            copies: vec![before.clone(); COPIES],
            before,
            pack,
        }
    }

    /// The number and the reply's length for a datagram, with such an ID for a
    /// channel that it may open. `second` gives the same, and names the same node.
    pub fn answer(&mut self, id: u32, datagram: &[u8]) -> (u32, usize) {
        self.restore();
        let [first, second, ..] = &mut self.copies[..] else {
            unreachable!("there are some copies");
        };
        let answer = calls::take(first.rooms.lend(&mut first.words), CLOCK, id, datagram);
        let rooms = &mut second.rooms.lend_to_second();
        let wanted = channel::take(&mut second.state, rooms, CLOCK, id, datagram);
        let wanted = Told::from(wanted);
        assert_eq!(Told::from(answer), wanted, "{}", hex::encode(datagram));
        (wanted.number, wanted.len)
    }

    /// The time of the proved code for the datagrams, each in a copy of its own.
    pub fn proved(&mut self, id: u32, datagrams: &[Vec<u8>]) -> Duration {
        self.restore();
        let copies = self.copies.iter_mut().zip(black_box(datagrams));
        timed(|| {
            for (store, datagram) in copies {
                let lent = store.rooms.lend(&mut store.words);
                black_box(calls::take(lent, CLOCK, id, datagram));
            }
        })
    }

    /// That of `second`.
    pub fn second(&mut self, id: u32, datagrams: &[Vec<u8>]) -> Duration {
        self.restore();
        let copies = self.copies.iter_mut().zip(black_box(datagrams));
        timed(|| {
            for (store, datagram) in copies {
                let mut lent = store.rooms.lend_to_second();
                let state = &mut store.state;
                black_box(channel::take(state, &mut lent, CLOCK, id, datagram));
            }
        })
    }

    fn restore(&mut self) {
        for copy in &mut self.copies {
            copy.restore(&self.before);
        }
    }
}

/// The time of the proved SHA-256 for the datagrams.
pub fn hashed(datagrams: &[Vec<u8>]) -> Duration {
    timed(|| {
        for datagram in black_box(datagrams) {
            black_box(proved::sha256(datagram));
        }
    })
}
