//! A store that is called by hand. Each call goes to `second` too, and must give
//! and leave the same.

use crate::calls::{Call, Told};
use crate::channels::Both;
use crate::naming::Answer;
use crate::packets::{datagram, fixed, handshake};
use crate::packs::Pack;
use crate::random::Random;
use crate::rooms::Rooms;
use second::channel::Phase;
use second::sha256::Digest;
use second::wire::Addressing;

/// A store that is called, in rooms of some length.
#[derive(Clone)]
pub struct Caller(pub Both);

impl Caller {
    /// Without an order, in rooms with anything in them.
    pub fn new(random: &mut Random, length: u32) -> Self {
        Caller(Both::unstarted(Rooms::random(random, length)))
    }

    /// With an order, and nothing else.
    pub fn started(
        addressing: Addressing,
        random: &mut Random,
        root: &Digest,
        length: u32,
    ) -> Self {
        let mut caller = Caller::new(random, length);
        assert_eq!(caller.start(root, length, addressing.number()), 0);
        caller
    }

    /// A whole store of a pack.
    pub fn built(addressing: Addressing, random: &mut Random, pack: &Pack) -> Self {
        let mut caller = Caller::new(random, pack.length());
        let method = addressing.number();
        assert_eq!(caller.build(pack.length(), method, &pack.content), 0);
        caller
    }

    /// The same with a channel that a peer opened under its store's method.
    pub fn opened(mut self, id: u32, peer: u32) -> Self {
        let options = fixed(self.0.state().addressing, &self.0.state().root);
        let opening = datagram(0, &[handshake(peer, &options)]);
        assert_eq!(self.take(0, id, &opening).0, 0);
        self
    }

    /// The number of a call, and its reply.
    pub fn call(&mut self, call: &Call) -> (u32, Vec<u8>) {
        let told = self.0.call("a call by hand", call);
        (told.number, self.0.reply(&told))
    }

    pub fn start(&mut self, root: &Digest, length: u32, method: u32) -> u32 {
        let start = Call::Start {
            root: *root,
            length,
            method,
        };
        self.call(&start).0
    }

    pub fn build(&mut self, length: u32, method: u32, content: &[u8]) -> u32 {
        let build = Call::Build {
            length,
            method,
            content: content.to_vec(),
        };
        self.call(&build).0
    }

    pub fn open(&mut self, id: u32) -> (u32, Vec<u8>) {
        self.call(&Call::Open { id })
    }

    pub fn take(&mut self, clock: u64, id: u32, datagram: &[u8]) -> (u32, Vec<u8>) {
        let datagram = datagram.to_vec();
        self.call(&Call::Take {
            clock,
            id,
            datagram,
        })
    }

    /// The number for a datagram, and the node that it names.
    pub fn answer(&mut self, id: u32, datagram: &[u8]) -> Answer {
        let take = Call::Take {
            clock: 0,
            id,
            datagram: datagram.to_vec(),
        };
        self.0.call("taken by hand", &take).answer()
    }

    pub fn write(&mut self, id: u32, chunk: u32, clock: u64) -> (u32, Vec<u8>) {
        self.call(&Call::Write { id, chunk, clock })
    }

    /// The number, the held count and whether all are held.
    pub fn ask(&mut self) -> (u32, u32, u32) {
        let Told { number, held, .. } = self.0.call("asked by hand", &Call::Ask);
        (number, held[0], held[1])
    }

    /// The place of the row that is in use under an ID.
    pub fn row(&self, id: u32) -> Option<usize> {
        let mut rows = self.0.state().rows.iter();
        rows.position(|row| row.phase != Phase::Free && row.id == id)
    }
}
