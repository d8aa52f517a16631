//! A download from a whole store to another one, chunk by chunk. Each call goes to
//! `second` too, and must give and leave the same.

use crate::caller::Caller;
use crate::came::leave_least;
use crate::packets::{datagram, is_integrity, messages};
use crate::packs::Pack;
use crate::random::Random;
use second::wire::Addressing;

/// The ends of the channel: the whole store's and the other's.
pub const ITS: u32 = 7;
pub const OURS: u32 = 5;

/// The delay of each ACK: our clock is ahead by so much.
pub const DELAY: u64 = 4_000;

/// Two stores, of which one has the pack, with a channel between them.
pub struct Download {
    pub addressing: Addressing,
    pub pack: Pack,
    pub whole: Caller,
    pub store: Caller,
    /// A bit for each chunk, low bit first: whether it was brought over.
    pub brought: Vec<u32>,
}

impl Download {
    /// Our store calls, the whole one answers, and so both ends are open.
    pub fn new(addressing: Addressing, random: &mut Random, pack: Pack) -> Self {
        let mut whole = Caller::built(addressing, random, &pack);
        let (root, length) = (pack.built.root(), pack.length());
        let mut store = Caller::started(addressing, random, root, length);
        let (number, calling) = store.open(OURS);
        assert_eq!((number, calling.len()), (0, 60));
        let (number, answering) = whole.take(0, ITS, &calling);
        assert_eq!((number, answering.len()), (0, 60));
        assert_eq!(store.take(0, 0, &answering), (0, vec![]));
        Download {
            addressing,
            whole,
            store,
            brought: vec![0; pack.count().div_ceil(32) as usize],
            pack,
        }
    }

    /// Brings a chunk over, with all hashes or the least, and the ACK back; gives
    /// the number of hashes and the ACK's datagram.
    pub fn bring(&mut self, chunk: u32, least: bool) -> (usize, Vec<u8>) {
        let clock = 1_000 + u64::from(chunk);
        let (number, written) = self.whole.write(ITS, chunk, clock);
        assert_eq!(number, 0);
        let mut parts = messages(self.addressing, &written);
        if least {
            let trusts = |node| self.store.0.trusts(node);
            let count = self.pack.count();
            leave_least(self.addressing, &mut parts, count, chunk, trusts);
        }
        let taken = datagram(OURS, &parts);
        let (number, acknowledgement) = self.store.take(clock + DELAY, 0, &taken);
        assert_eq!(number, 0);
        self.brought[chunk as usize / 32] |= 1 << (chunk % 32);
        assert_eq!(self.whole.take(0, 0, &acknowledgement), (0, vec![]));
        let hashes = parts.iter().filter(|part| is_integrity(part)).count();
        (hashes, acknowledgement)
    }

    /// What the whole store knows our end to have is what was brought over.
    pub fn check_known(&self) {
        let row = self.whole.row(ITS).expect("the channel is open");
        let words = self.brought.len();
        let has = &self.whole.0.rooms().has[row * words..][..words];
        assert_eq!(has, self.brought);
    }

    /// All of the pack is there, and nothing else.
    pub fn check_whole(&mut self) {
        assert_eq!(self.store.ask(), (0, self.pack.count(), 1));
        let chunks = &self.store.0.rooms().chunks;
        assert!(chunks.starts_with(&self.pack.content));
    }
}
