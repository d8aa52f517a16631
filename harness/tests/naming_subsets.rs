//! The node that 9 and 10 name (02, No. 3), against `second` and a plain reading of
//! the papers: for each chunk of small packs, in stores of several states, every
//! subset of the needed hashes is missing or wrong; of large packs, some subsets.

use harness::beside::Both;
use harness::caller::Caller;
use harness::came::{least_nodes, with_hashes, Came};
use harness::naming::{Answer, Named, MISSING, WRONG};
use harness::packets::{datagram, METHODS};
use harness::packs::{random_rooms, Pack};
use harness::random::Random;
use harness::takes::Take;

/// Up to so many chunks there are stores with channels too.
const WITH_CHANNELS: u32 = 16;

/// How many subsets of the needed hashes are tried in small packs, where there are
/// never so many, and in large ones.
const EVERY: usize = 1_024;
const SOME: usize = 100;

/// The channel of a store, and the one of its peer.
const OURS: u32 = 5;
const ITS: u32 = 9;

/// Stores of one pack, in one state: one without channels, and one under each
/// method.
#[derive(Clone)]
struct Stores {
    store: Both,
    channels: Vec<Caller>,
}

impl Stores {
    fn fresh(random: &mut Random, pack: &Pack) -> Self {
        let (root, length) = (pack.built.root(), pack.length());
        let rooms = random_rooms(random, length);
        let store = Both::start("a fresh store", root, length, &rooms);
        let methods = METHODS.iter().take_while(|_| pack.count() <= WITH_CHANNELS);
        let channels = methods.map(|&addressing| {
            let started = Caller::started(addressing, random, root, length);
            started.opened(OURS, ITS)
        });
        Stores {
            channels: channels.collect(),
            store: store.unwrap_or_else(|refusal| panic!("{refusal}")),
        }
    }

    /// What all of them answer.
    fn take(&mut self, case: &str, take: &Take) -> Answer {
        let answer = self.store.take(case, take);
        for caller in &mut self.channels {
            let addressing = caller.0.state().addressing;
            let datagram = datagram(OURS, &take.messages(addressing, 0));
            assert_eq!(
                caller.answer(0, &datagram),
                answer,
                "{case}, {addressing:?}"
            );
        }
        answer
    }

    /// The same with these chunks stored.
    fn with(mut self, pack: &Pack, chunks: &[u32]) -> Self {
        for &chunk in chunks {
            let take = Take::right(pack, self.store.second(), chunk);
            assert_eq!(self.take(&take.what, &take), (0, None), "{}", take.what);
        }
        self
    }

    fn trusts(&self, node: u64) -> bool {
        self.store.second().trusts(node)
    }
}

/// Which of the needed hashes are missing and which are wrong, by bits, and whether
/// the chunk is wrong.
#[derive(Clone, Copy, Debug, PartialEq, Eq)]
struct Choice {
    missing: u32,
    wrong: u32,
    wrong_chunk: bool,
}

impl Choice {
    /// Each subset of so many missing, where the others are right or wrong, and each
    /// subset wrong; the chunk right or wrong. Something is missing or wrong. Of more
    /// subsets than `most`, only so many.
    fn all(random: &mut Random, needed: usize, most: usize) -> Vec<Choice> {
        let every = (1 << needed) - 1;
        let subsets: Vec<u32> = match every < most as u32 {
            true => (0..=every).collect(),
            false => (0..most).map(|_| sparse(random) & every).collect(),
        };
        let choice = |(missing, wrong)| {
            [false, true].map(|wrong_chunk| Choice {
                missing,
                wrong,
                wrong_chunk,
            })
        };
        let pairs = |subset| [(subset, 0), (subset, every), (0, subset)];
        let all = subsets.into_iter().flat_map(pairs).flat_map(choice);
        all.filter(|choice| choice.number() != 0).collect()
    }

    /// The number for it.
    fn number(self) -> u32 {
        match self {
            Choice { missing: 1.., .. } => MISSING,
            Choice {
                wrong: 0,
                wrong_chunk: false,
                ..
            } => 0,
            _ => WRONG,
        }
    }

    /// A chunk that comes so.
    fn take(self, pack: &Pack, number: u32, needed: &[u64]) -> Take {
        let is_in = |set: u32, at: usize| set >> at & 1 == 1;
        let hashes = with_hashes(&pack.built, needed.to_vec()).into_iter();
        let came = hashes
            .enumerate()
            .filter(|&(at, _)| !is_in(self.missing, at));
        let came = came.map(|(at, (node, mut hash))| {
            hash[at % 32] ^= u8::from(is_in(self.wrong, at));
            (node, hash)
        });
        let mut chunk = pack.chunk(number).to_vec();
        chunk[0] ^= u8::from(self.wrong_chunk);
        Take {
            number,
            chunk,
            came: Came::new(&came.collect::<Vec<_>>()),
            what: format!("{self:?} of {needed:?}"),
        }
    }
}

/// A number of few, some or many ones.
fn sparse(random: &mut Random) -> u32 {
    let times = random.below(4);
    (0..times).fold(random.number(), |bits, _| bits & random.number())
}

/// The chunks that are stored before a chunk comes: none; one whose path meets its
/// own right away, a step or two higher, or perhaps nowhere below a peak; itself; and
/// all.
fn states(count: u32, chunk: u32) -> Vec<Vec<u32>> {
    let one = [chunk ^ 1, chunk ^ 2, chunk ^ 4, count - 1 - chunk, chunk];
    let one = one.into_iter().filter(|&other| other < count);
    let mut states: Vec<Vec<u32>> = one.map(|other| vec![other]).collect();
    states.extend([vec![], (0..count).collect()]);
    states
}

/// Choices of so many subsets at most, for a chunk that comes to such stores.
fn run(
    random: &mut Random,
    pack: &Pack,
    chunk: u32,
    stores: &mut Stores,
    most: usize,
    named: &mut Named,
) {
    let count = pack.count();
    let needed = least_nodes(count, chunk, |node| stores.trusts(node));
    for choice in Choice::all(random, needed.len(), most) {
        let take = choice.take(pack, chunk, &needed);
        let case = format!("chunk {chunk} of {count}, {}", take.what);
        let answer = stores.take(&case, &take);
        assert_eq!(answer.0, choice.number(), "{case}");
        named.add(&take.offer(count), |node| stores.trusts(node), answer);
    }
}

#[test]
fn every_subset_in_small_packs() {
    let mut named = Named::default();
    for count in 1..=32 {
        let mut random = Random::new(count);
        let pack = Pack::new(&mut random, 1_024 * count - 1_020);
        let fresh = Stores::fresh(&mut random, &pack);
        for chunk in 0..count {
            for stored in states(count, chunk) {
                let mut stores = fresh.clone().with(&pack, &stored);
                run(&mut random, &pack, chunk, &mut stores, EVERY, &mut named);
            }
        }
    }
    println!("packs of 1 to 32 chunks: {named}");
    named.demand(1_000, 60);
}

#[test]
fn some_subsets_in_large_packs() {
    let mut named = Named::default();
    for count in [63, 100, 255, 341, 511, 512] {
        let mut random = Random::new(count);
        let pack = Pack::new(&mut random, 1_024 * count - 6);
        let fresh = Stores::fresh(&mut random, &pack);
        for chunk in [0, 1, count / 2, count - 2, count - 1] {
            for stored in [vec![], vec![chunk / 2], vec![count - 1 - chunk]] {
                let mut stores = fresh.clone().with(&pack, &stored);
                run(&mut random, &pack, chunk, &mut stores, SOME, &mut named);
            }
        }
    }
    println!("packs of 63 to 512 chunks: {named}");
    named.demand(50, 25);
}
