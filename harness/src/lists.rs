//! Random lists of calls on a store, from any state.

use crate::arriving::{clock, Peer};
use crate::calls::{Call, Told};
use crate::channels::{Both, LENGTH, METHOD, THIS_VERSION, VERSION};
use crate::composing::{method_told, Composing, BAD_METHODS};
use crate::garbling::garble_row;
use crate::packets::{datagram, fixed, handshake, sent_to};
use crate::packs::Pack;
use crate::random::Random;
use crate::rooms::Rooms;
use ppspp::sizes::STATE_WORDS;
use second::channel::{Phase, CHANNELS};
use second::wire::Addressing;

/// Lengths that no order has.
const BAD_LENGTHS: [u32; 3] = [0, 524_289, u32::MAX];

/// What mostly comes to a store.
#[derive(Clone, Copy, Debug, PartialEq, Eq)]
pub enum Mostly {
    /// Anything.
    Any,
    /// A download: chunks that are right.
    Right,
    /// Chunks that are refused for a hash.
    Lacking,
}

/// A store, and who sends to it, mostly under one method.
pub struct List<'a> {
    addressing: Addressing,
    pub random: Random,
    pub peer: Peer<'a>,
    pub store: Both,
    composing: Composing,
    mostly: Mostly,
}

impl<'a> List<'a> {
    /// A store without an order, or in one case of four with any state, mostly of
    /// the right version and of a method, in rooms with anything in them.
    pub fn new(addressing: Addressing, mut random: Random, pack: &'a Pack, mostly: Mostly) -> Self {
        let rooms = Rooms::random(&mut random, pack.length());
        let extra = random.place(3);
        let mut store = Both::new(vec![0; STATE_WORDS + extra], rooms);
        if random.one_in(4) {
            let words = random.words(STATE_WORDS + extra);
            store.change(|state, _| state.copy_from_slice(&words));
            store.change(|state, _| state[LENGTH] = pack.length());
            if !random.one_in(8) {
                store.change(|state, _| state[VERSION] = THIS_VERSION);
            }
            if !random.one_in(8) {
                store.change(|state, _| state[METHOD] = addressing.number());
            }
            for i in 0..CHANNELS {
                garble_row(&mut random, &mut store, i);
            }
        }
        let peer = sender(addressing, &mut random, pack);
        List {
            addressing,
            random,
            peer,
            store,
            composing: Composing::new(addressing),
            mostly,
        }
    }

    /// How many chunks of the pack the store holds.
    pub fn held(&self) -> usize {
        let chunks = 0..self.peer.pack.count();
        chunks.filter(|&chunk| self.store.holds(chunk)).count()
    }

    /// The next call, which may have anything wrong.
    pub fn next_call(&mut self, case: &str) -> Call {
        let pack = self.peer.pack;
        let started = self.store.state().length == pack.length();
        if !started && self.random.one_in(4) {
            return self.start();
        }
        if self.mostly != Mostly::Any && !self.random.one_in(5) {
            return self.next_chunk(case);
        }
        if self.composing.is_under_way() && !self.random.one_in(12) {
            return self.go_on();
        }
        match self.random.below(100) {
            0 => self.start(),
            1 => self.wrong_start(),
            2..10 => Call::Open { id: self.new_id() },
            10..22 => self.write(),
            22..28 => Call::Ask,
            28..34 => self.compose(case),
            34..38 => self.composing.any_add(&mut self.random),
            _ => {
                let datagram = self.peer.arriving(case, &mut self.random, &self.store);
                self.take(datagram)
            }
        }
    }

    /// The next chunk of a store to which such ones mostly come. Where they are
    /// refused, now and then comes a right one, or a start.
    fn next_chunk(&mut self, case: &str) -> Call {
        let lacking = self.mostly == Mostly::Lacking;
        if lacking && self.random.one_in(20) {
            return self.start();
        }
        let datagram = if lacking && !self.random.one_in(20) {
            self.peer.lacking(&mut self.random, &self.store)
        } else {
            self.peer.downloaded(case, &mut self.random, &self.store)
        };
        self.take(datagram)
    }

    /// Has the store make a call.
    pub fn call(&mut self, case: &str, call: &Call) -> Told {
        let told = self.store.call(case, call);
        self.composing.keep(call, &told);
        told
    }

    fn take(&mut self, datagram: Vec<u8>) -> Call {
        Call::Take {
            clock: clock(&mut self.random),
            id: self.new_id(),
            datagram,
        }
    }

    /// Begins to compose a datagram for the store or the peer, or goes on behind
    /// the last reply.
    fn compose(&mut self, case: &str) -> Call {
        let mut model = self.peer.arriving(case, &mut self.random, &self.store);
        if self.random.one_in(4) {
            model = sent_to(self.peer.channel, model);
        }
        if self.random.one_in(6) {
            self.composing.behind_reply(model);
            return self.go_on();
        }
        self.composing.begin(model)
    }

    /// Adds the next message to the datagram that is composed; at the end the
    /// store takes it in.
    fn go_on(&mut self) -> Call {
        match self.composing.next_add(&mut self.random) {
            Some(add) => add,
            None => {
                let reply = &self.store.rooms().reply;
                let composed = reply[..self.composing.so_far()].to_vec();
                self.take(composed)
            }
        }
    }

    /// A taking in by the peer's store of what a begin or an add left in the
    /// reply room, if it is to the peer's channel.
    pub fn taken_by_peer(&mut self, told: &Told) -> Option<Call> {
        let datagram = self.store.reply(told);
        let to_peer = datagram.starts_with(&self.peer.channel.to_be_bytes());
        to_peer.then(|| self.take(datagram))
    }

    /// A start, or a building in one of three cases; now and then under another
    /// root or method.
    pub fn start(&mut self) -> Call {
        let pack = self.peer.pack;
        let length = pack.length();
        let method = method_told(&mut self.random, self.addressing);
        match self.random.below(12) {
            0..4 => Call::Build {
                length,
                method,
                content: pack.content.clone(),
            },
            4 => Call::Start {
                root: self.random.digest(),
                length,
                method,
            },
            _ => Call::Start {
                root: *pack.built.root(),
                length,
                method,
            },
        }
    }

    /// A start or a building under another length or under no method, or from
    /// other content.
    fn wrong_start(&mut self) -> Call {
        let pack = self.peer.pack;
        let mut content = pack.content.clone();
        let mut length = pack.length();
        let mut method = self.addressing.number();
        match self.random.below(5) {
            0 | 1 => length = self.random.one_of(&BAD_LENGTHS),
            2 => length = 1 + self.random.below(2 * length),
            3 => method = self.random.one_of(&BAD_METHODS),
            _ => content.push(0),
        }
        let root = *pack.built.root();
        match self.random.below(2) {
            0 => Call::Start {
                root,
                length,
                method,
            },
            _ => Call::Build {
                length,
                method,
                content,
            },
        }
    }

    /// An ID for a new channel: in most cases one that is not in use.
    fn new_id(&mut self) -> u32 {
        match self.random.below(12) {
            0 => 0,
            1 => self.random.one_of(&self.store.state().rows).id,
            2 => self.random.number(),
            _ => 1 + self.random.below(200),
        }
    }

    /// A chunk to be written: in most cases on an open channel, and one that is
    /// held.
    fn write(&mut self) -> Call {
        let rows = self.store.state().rows;
        let open: Vec<_> = rows.iter().filter(|row| row.phase == Phase::Open).collect();
        let id = match self.random.below(10) {
            0 => self.random.number(),
            1 => self.random.one_of(&rows).id,
            _ if open.is_empty() => self.random.one_of(&rows).id,
            _ => self.random.one_of(&open).id,
        };
        let count = self.peer.pack.count();
        let held: Vec<u32> = (0..count).filter(|&c| self.store.holds(c)).collect();
        let chunk = match self.random.below(10) {
            0 => self.random.one_of(&[count, count + 1, 512, u32::MAX]),
            1..4 => self.random.below(count),
            _ if held.is_empty() => self.random.below(count),
            _ => self.random.one_of(&held),
        };
        Call::Write {
            id,
            chunk,
            clock: clock(&mut self.random),
        }
    }
}

/// A whole store of a pack, with a channel that a peer opened.
pub fn sender<'a>(addressing: Addressing, random: &mut Random, pack: &'a Pack) -> Peer<'a> {
    let rooms = Rooms::random(random, pack.length());
    let mut sender = Both::unstarted(rooms);
    let build = Call::Build {
        length: pack.length(),
        method: addressing.number(),
        content: pack.content.clone(),
    };
    assert_eq!(sender.call("the sender", &build).number, 0);
    let channel = 1 + random.below(1_000);
    let opening = handshake(9, &fixed(addressing, pack.built.root()));
    let take = Call::Take {
        clock: 0,
        id: channel,
        datagram: datagram(0, &[opening]),
    };
    assert_eq!(sender.call("the sender", &take).number, 0);
    Peer {
        addressing,
        pack,
        sender,
        channel,
    }
}
